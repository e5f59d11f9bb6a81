"""A vhost-user client that isn't Linux: it has memory of its own, with a hole in it, and writes
into its rings whatever is wanted. It kicks and is called by messages, as virtio_uml, or by events,
as QEMU."""

import array
import contextlib
import os
import select
import socket
import struct

from waiting import PATIENCE

PAGE = 4096
PAGES_OF_REGION = 64

# Bytes of a saved device (docs/INTEGRATION.md, "A saved state").
STATE_BYTES = 240

# Two regions with a hole between them: where they are in the guest and in the client.
REGIONS = ((0x100000, 0x7F0000000000), (0x180000, 0x7F1000000000))

GET_FEATURES, SET_FEATURES, SET_OWNER, RESET_OWNER, SET_MEM_TABLE, SET_LOG_BASE = 1, 2, 3, 4, 5, 6
SET_VRING_NUM, SET_VRING_ADDR, SET_VRING_BASE, GET_VRING_BASE = 8, 9, 10, 11
SET_VRING_KICK, SET_VRING_CALL, SET_VRING_ERR = 12, 13, 14
(
    GET_PROTOCOL_FEATURES,
    SET_PROTOCOL_FEATURES,
    GET_QUEUE_NUM,
    SET_VRING_ENABLE,
    SET_BACKEND_REQ_FD,
) = (15, 16, 17, 18, 21)
GET_CONFIG, SET_CONFIG, RESET_DEVICE, VRING_KICK = 24, 25, 34, 35
GET_MAX_MEM_SLOTS, ADD_MEM_REG, REM_MEM_REG, SET_STATUS, GET_STATUS = 36, 37, 38, 39, 40
SET_DEVICE_STATE_FD, CHECK_DEVICE_STATE = 42, 43
CONFIG_CHANGED, VRING_CALL = 2, 4

# Flags of an answer, and of what a backend tells: the version, and that it is an answer.
ANSWERS, TELLS = 1 | 4, 1

# Protocol features: MQ, REPLY_ACK, BACKEND_REQ, CONFIG, RESET_DEVICE, INBAND_NOTIFICATIONS,
# CONFIGURE_MEM_SLOTS, STATUS; and for a guest that migrates, which a lender's doesn't: LOG_SHMFD,
# DEVICE_STATE.
REPLY_ACK, BY_MESSAGES, STATUS = 1 << 3, 1 << 14, 1 << 16
OFFERED, MIGRATION = 0x1E229, 0x80002
UML_PROTOCOL, QEMU_PROTOCOL = 0x4228, OFFERED & ~BY_MESSAGES
HAS_PROTOCOL, LOG_ALL = 1 << 30, 1 << 26
NO_FILE = 1 << 8

FEATURES, POISON = 0x100000027, 16
INFLATE, DEFLATE, STATISTICS, REPORT, KINDLESS = range(5)
QUEUES = 5
NEXT, WRITE, INDIRECT = 1, 2, 4

# Each queue has a size of 8 and three pages of a region; buffers begin at page 16 of the first.
SIZE = 8
BUFFERS = REGIONS[0][0] + 16 * PAGE

# Words that are no decimal number, nor one of 64 bits: what C's strtoul would take is among them.
NO_NUMBERS = (
    "",
    "x",
    " 5",
    "+5",
    "-1",
    "5 ",
    "5x",
    "0x5",
    "-18446744073709551615",
    "18446744073709551621",
)

# What may be in front of a line so that nothing of it is obeyed: more bytes than a line may have,
# or a byte 0.
NO_LINES = (*("x" * it for it in (127, 128, 254, 255, 256, 257, 511, 512, 513)), "\0", "x\0")


def memory_file(folder, name):
    """Makes a file for memory: a memfd, or one without a name in a folder."""
    return os.open(folder, os.O_TMPFILE | os.O_RDWR) if folder else os.memfd_create(name)


class Client:
    """A vhost-user client with memory, in a folder where one is named; `why` says what its backend
    said last."""

    regions, pages_of_region = REGIONS, PAGES_OF_REGION

    def __init__(self, path, why=lambda: "", folder=None):
        self.why, self.path, self.socket = why, path, None
        self.turn = contextlib.nullcontext()  # of whom of several threads sends
        self.connect()
        self.files = [memory_file(folder, f"region {it}") for it in range(len(self.regions))]
        for it in self.files:
            self.fill(it)
        self.available = [0] * QUEUES
        self.region = 0  # where the rings are
        self.offset = 0  # where each region begins in its file
        self.kicks, self.calls = [None] * QUEUES, [None] * QUEUES

    def fill(self, file):
        """Writes each byte of a region."""
        for _ in range(self.pages_of_region):
            os.write(file, b"\xff" * PAGE)

    def replace(self, region, file):
        """Has a region be this file, before it is handed over."""
        os.close(self.files[region])
        self.files[region] = file
        self.fill(file)

    def connect(self):
        """Comes to the backend, in place of a connection before."""
        if self.socket:
            self.socket.close(), self.own.close(), self.theirs.close()
        self.socket = socket.socket(socket.AF_UNIX, socket.SOCK_STREAM)
        self.socket.connect(self.path)
        self.socket.settimeout(PATIENCE)
        self.own, self.theirs = socket.socketpair()
        self.begun = False

    def leave(self):
        """Goes, and lets go of all that it had."""
        self.socket.close(), self.own.close(), self.theirs.close()
        for it in (*self.files, *self.kicks, *self.calls):
            if it is not None:
                os.close(it)

    def receive(self, stream=None):
        """Returns the request and the body of the next message; None where there is none any
        more."""
        stream = stream or self.socket
        stream.settimeout(PATIENCE)
        head = stream.recv(12, socket.MSG_WAITALL)
        if len(head) < 12:
            return None
        request, flags, size = struct.unpack("<III", head)
        if flags != (ANSWERS if stream is self.socket else TELLS):
            raise AssertionError(f"message {request} comes with the flags {flags:x}")
        return request, stream.recv(size, socket.MSG_WAITALL) if size else b""

    def send(self, request, body=b"", files=(), flags=9):
        """Sends a message, and returns the body of the answer where one is wanted."""
        control = [(socket.SOL_SOCKET, socket.SCM_RIGHTS, array.array("i", files))] if files else []
        with self.turn:
            self.socket.sendmsg([struct.pack("<III", request, flags, len(body)) + body], control)
            answer = self.receive() if flags & 8 else None
        if answer and answer[0] != request:
            raise AssertionError(f"message {request} has the answer to {answer[0]}")
        return answer and answer[1]

    def accepted(self, request, body=b"", files=()):
        """Sends a message that has to be accepted."""
        answer = self.send(request, body, files)
        if answer != bytes(8):
            raise AssertionError(f"message {request} is answered {answer}: {self.why()}")

    def write(self, address, data):
        """Writes bytes of the guest."""
        for (guest, _), file in zip(self.regions, self.files):
            if guest <= address < guest + self.pages_of_region * PAGE:
                os.pwrite(file, data, self.offset + address - guest)

    def read(self, address, length):
        """Reads bytes of the guest."""
        for (guest, _), file in zip(self.regions, self.files):
            if guest <= address < guest + self.pages_of_region * PAGE:
                return os.pread(file, length, self.offset + address - guest)
        raise AssertionError(f"{address:x} is in a hole")

    def holes(self):
        """Returns the numbers of the guest's pages that the host doesn't hold."""
        found = []
        for (guest, _), file in zip(self.regions, self.files):
            for page in range(self.pages_of_region):
                at = self.offset + page * PAGE
                if os.lseek(file, at, os.SEEK_HOLE) == at:
                    found.append(guest // PAGE + page)
        return found

    def hand_over_memory(self):
        """Tells the backend of the memory."""
        table = struct.pack("<II", len(self.regions), 0)
        for guest, user in self.regions:
            table += struct.pack("<QQQQ", guest, self.pages_of_region * PAGE, user, self.offset)
        self.accepted(SET_MEM_TABLE, table, self.files)

    def region_body(self, region):
        """Returns the body of a message that adds a region, or takes it away."""
        return struct.pack(
            "<QQQQQ",
            0,
            self.regions[region][0],
            self.pages_of_region * PAGE,
            self.regions[region][1],
            self.offset,
        )

    def add_memory(self):
        """Tells the backend of the memory, region by region."""
        for region, file in enumerate(self.files):
            self.accepted(ADD_MEM_REG, self.region_body(region), [file])

    def tell_place(self, number, size=SIZE, base=0, shift=0):
        """Tells the place of a queue, in the client's addresses."""
        user = self.regions[self.region][1] + 3 * number * PAGE + shift
        self.accepted(SET_VRING_NUM, struct.pack("<II", number, size))
        self.accepted(SET_VRING_BASE, struct.pack("<II", number, base))
        self.accepted(
            SET_VRING_ADDR, struct.pack("<IIQQQQ", number, 0, user, user + 2 * PAGE, user + PAGE, 0)
        )

    def clear(self, number):
        """Clears the rings of a queue."""
        self.write(self.table(number), bytes(3 * PAGE))
        self.available[number] = 0

    def place(self, number, size=SIZE, base=0, shift=0):
        """Gives a queue a place, and clears its rings."""
        self.clear(number)
        self.tell_place(number, size, base, shift)

    def enable(self, number, on=1):
        """Enables a queue, or disables it."""
        return self.send(SET_VRING_ENABLE, struct.pack("<II", number, on))

    def offered(self, request, wanted):
        """Asks what is offered, all of which has to be there that is wanted; returns that."""
        (offered,) = struct.unpack("<Q", self.send(request))
        if wanted & ~offered:
            raise AssertionError(f"0x{offered:x} is offered, and 0x{wanted:x} wanted: {self.why()}")
        return wanted

    def begin(self, protocol=UML_PROTOCOL):
        """Begins a session, with a channel of its own: virtio_uml says so before all else, QEMU
        once protocol features are negotiated."""
        if self.begun:
            self.own.close(), self.theirs.close()
            self.own, self.theirs = socket.socketpair()
        says = (
            (lambda *it: self.accepted(*it))
            if protocol & REPLY_ACK
            else (lambda *it: self.send(*it, flags=1))
        )
        if protocol & BY_MESSAGES:
            self.send(SET_OWNER, flags=1)
        self.offered(GET_FEATURES, HAS_PROTOCOL)
        says(
            SET_PROTOCOL_FEATURES, struct.pack("<Q", self.offered(GET_PROTOCOL_FEATURES, protocol))
        )
        says(SET_BACKEND_REQ_FD, b"", [self.theirs.fileno()])
        if not protocol & BY_MESSAGES:
            says(SET_OWNER)
        self.begun = True

    def negotiate(self, features=FEATURES, protocol=UML_PROTOCOL):
        """Does what comes before memory; a session begins once a connection."""
        if not self.begun:
            self.begin(protocol)
        self.accepted(
            SET_FEATURES, struct.pack("<Q", self.offered(GET_FEATURES, features | HAS_PROTOCOL))
        )

    def start(self, features=FEATURES, queues=4, size=SIZE):
        """Does what virtio_uml and its driver do until the device is ready."""
        self.negotiate(features)
        self.hand_over_memory()
        for number in range(queues):
            self.place(number, size)
        for number in range(queues):
            if self.enable(number) != bytes(8):
                raise AssertionError(self.why())

    def start_by_events(self, features=FEATURES, protocol=QEMU_PROTOCOL, bases=None):
        """Does what QEMU does until the device is ready; with rings that go on at these indexes, or
        with new ones."""
        self.negotiate(features, protocol)
        self.add_memory()
        self.go_on(bases)

    def go_on(self, bases=None, order=range(4)):
        """Starts the rings, which are enabled in this order, and the driver."""
        if bases is None:
            for number in range(4):
                self.clear(number)
        for number in range(4):
            self.tell_place(number, base=bases[number] if bases else 0)
            self.give_events(number)
        for number in order:
            self.accepted(SET_VRING_ENABLE, struct.pack("<II", number, 1))
        self.accepted(SET_STATUS, struct.pack("<Q", 15))

    def give_events(self, number):
        """Gives a queue new events."""
        for events, request in ((self.calls, SET_VRING_CALL), (self.kicks, SET_VRING_KICK)):
            if events[number] is not None:
                os.close(events[number])
            events[number] = os.eventfd(0, os.EFD_CLOEXEC | os.EFD_NONBLOCK)
            self.accepted(request, struct.pack("<Q", number), [events[number]])

    def stop_ring(self, number):
        """Stops a ring; returns where it resumes."""
        answered, base = struct.unpack(
            "<II", self.send(GET_VRING_BASE, struct.pack("<II", number, 0))
        )
        if answered != number:
            raise AssertionError(f"queue {number} is asked for, and {answered} is answered")
        return base

    def table(self, number):
        """Returns where a queue's table is."""
        return self.regions[self.region][0] + 3 * number * PAGE

    def describe(self, number, head, address, length, flags=0, follows=0):
        """Writes a descriptor."""
        self.write(
            self.table(number) + 16 * head, struct.pack("<QIHH", address, length, flags, follows)
        )

    def publish(self, number, head, by=1):
        """Makes a chain available."""
        at = self.table(number) + PAGE
        self.write(at + 4 + 2 * (self.available[number] % SIZE), struct.pack("<H", head))
        self.available[number] += by
        self.write(at + 2, struct.pack("<H", self.available[number] & 0xFFFF))

    def kick(self, number):
        """Kicks a queue: by its event, or by a message whose answer comes before anything is
        served."""
        if self.kicks[number] is not None:
            return os.eventfd_write(self.kicks[number], 1)
        return self.send(VRING_KICK, struct.pack("<II", number, 0))

    def post_pages(self, number, pages, head=0):
        """Posts a request with these page numbers, and kicks."""
        self.write(BUFFERS, struct.pack(f"<{len(pages)}I", *pages))
        self.describe(number, head, BUFFERS, 4 * len(pages))
        self.publish(number, head)
        return self.kick(number)

    def used_index(self, number):
        """Returns the used index."""
        return struct.unpack("<H", self.read(self.table(number) + 2 * PAGE + 2, 2))[0]

    def is_all_used(self, number):
        """Whether the device has nothing of a queue any longer."""
        return self.used_index(number) == self.available[number] & 0xFFFF

    def used(self, number):
        """Returns the used index, and the entries that are there."""
        at, index = self.table(number) + 2 * PAGE, self.used_index(number)
        return index, [
            struct.unpack("<II", self.read(at + 4 + 8 * (it % SIZE), 8)) for it in range(index)
        ]

    def told(self, limit=PATIENCE):
        """Returns the next thing that the backend tells: a queue's number, or None for the
        configuration."""
        if not select.select([self.own], [], [], limit)[0]:
            raise AssertionError(f"the backend tells nothing: {self.why()}")
        request, body = self.receive(self.own)
        if body not in (b"", body[:4] + bytes(4)):
            raise AssertionError(f"the backend tells {body}")
        if request not in (VRING_CALL, CONFIG_CHANGED):
            raise AssertionError(f"the backend tells {request}")
        return struct.unpack("<I", body[:4])[0] if request == VRING_CALL else None

    def called(self, number, limit=PATIENCE):
        """Returns how often a queue was called by its event since the last time, and waits for the
        first."""
        if not select.select([self.calls[number]], [], [], limit)[0]:
            return 0
        return os.eventfd_read(self.calls[number])

    def said(self, number, limit=PATIENCE):
        """Returns the next bytes of a pipe by which a queue is called; none where nothing comes in
        time."""
        return (
            os.read(self.calls[number], 8)
            if select.select([self.calls[number]], [], [], limit)[0]
            else b""
        )
