"""A client of monitor/backends/pci_proxy_balloon.c in the place of QEMU: a machine with a guest's
memory, whose driver is the test."""

import array
import os
import socket
import struct
import tempfile

import linux_guest
from waiting import PATIENCE

PAGE = 4096
PAGES = 64

(
    SYNC_MEMORY,
    RETURN,
    CONFIGURATION_WRITE,
    CONFIGURATION_READ,
    BAR_WRITE,
    BAR_READ,
    SET_INTERRUPT,
    DEVICE_RESET,
) = range(8)

# Offsets of the registers (VIRTIO 1.1, 4.1.4.3).
OFFER_SELECT, OFFERED, ACCEPT_SELECT, ACCEPTED, MSIX, QUEUES, STATUS, GENERATION = (
    0,
    4,
    8,
    12,
    16,
    18,
    20,
    21,
)
SELECT, SIZE, QUEUE_MSIX, ENABLE, NOTIFY_OFF, PLACE = 22, 24, 26, 28, 30, 32
NOTIFY, ISR, DEVICE = 0x1000, 0x2000, 0x3000

QUEUE_SIZE = 8
BUFFERS = 16 * PAGE


class Client:
    """A machine with a guest's memory, and the backend that it talks to."""

    def __init__(self, program, *options):
        self.folder = tempfile.TemporaryDirectory(prefix="test-pci-proxy-")
        self.socket, theirs = socket.socketpair()
        self.socket.settimeout(PATIENCE)
        self.backend = linux_guest.Backend(
            program,
            self.folder.name,
            [str(theirs.fileno()), "--strict", *options],
            [theirs.fileno()],
        )
        theirs.close()
        self.memory, self.interrupt = os.memfd_create("memory"), os.eventfd(0, os.EFD_NONBLOCK)
        os.write(self.memory, bytes(16 * PAGE) + b"\xff" * (PAGES - 16) * PAGE)
        self.send(SET_INTERRUPT, files=[self.interrupt])
        self.hand_over([(0, PAGES * PAGE, 0)])

    def hand_over(self, regions):
        """Tells the backend of the memory: where each region begins in the guest, its bytes, and
        where it begins in the file."""
        tables = [[it[part] for it in regions] + [0] * (8 - len(regions)) for part in range(3)]
        self.send(SYNC_MEMORY, struct.pack("<24Q", *sum(tables, [])), len(regions) * [self.memory])

    def close(self):
        """Goes; returns the backend's status and what it said last."""
        self.socket.close()
        status = self.backend.process.wait(PATIENCE)
        os.close(self.memory), os.close(self.interrupt)
        self.backend.process.stdin.close(), self.backend.process.stdout.close()
        said = self.backend.why()
        self.folder.cleanup()
        return status, said

    def open_files(self):
        """Returns how many files the backend has open, once it has done what came before."""
        self.read(STATUS)
        return len(os.listdir(f"/proc/{self.backend.process.pid}/fd"))

    def send(self, command, body=b"", files=()):
        """Sends a message that has no answer."""
        control = [(socket.SOL_SOCKET, socket.SCM_RIGHTS, array.array("i", files))] if files else []
        self.socket.sendmsg([struct.pack("<iiQ", command, 0, len(body)) + body], control)

    def answer(self):
        """Returns the number that is the next answer."""
        answer = self.socket.recv(24, socket.MSG_WAITALL)
        if len(answer) < 24:
            raise ConnectionError
        return struct.unpack("<iiQQ", answer)[3]

    def ask(self, command, body=b""):
        """Sends a message, and returns the number that is its answer."""
        self.send(command, body)
        return self.answer()

    def read(self, at, length=4):
        """Reads a register."""
        return self.ask(BAR_READ, struct.pack("<QQIB", at, 0, length, 1))

    def write(self, at, value, length=4):
        """Writes a register."""
        self.ask(BAR_WRITE, struct.pack("<QQIB", at, value, length, 1))

    def configuration(self, at, length=4):
        """Reads the configuration space of the function."""
        return self.ask(CONFIGURATION_READ, struct.pack("<III", at, 0, length))

    def place(self, number, size=QUEUE_SIZE):
        """Gives a queue three pages, and enables it."""
        self.write(SELECT, number)
        self.write(SIZE, size)
        for part in range(3):
            self.write(PLACE + 8 * part, (3 * number + part) * PAGE)
            self.write(PLACE + 8 * part + 4, 0)
        self.write(ENABLE, 1)

    def negotiate(self, features=0x100000027):
        """Does what a driver does before it places its queues."""
        for status in (0, 1, 3):
            self.write(STATUS, status)
        for half in (0, 1):
            self.write(ACCEPT_SELECT, half), self.write(
                ACCEPTED, features >> 32 * half & 0xFFFFFFFF
            )
        self.write(STATUS, 11)

    def start(self):
        """Does what a driver does until the device is ready."""
        self.negotiate()
        for number in range(4):
            self.place(number)
        self.write(STATUS, 15)

    def post(self, number, pages, by=1):
        """Posts a request of these pages as the queue's next, and kicks."""
        data = struct.pack(f"<{len(pages)}I", *pages)
        os.pwrite(self.memory, data, BUFFERS)
        os.pwrite(self.memory, struct.pack("<QIHH", BUFFERS, len(data), 0, 0), 3 * number * PAGE)
        at = (3 * number + 1) * PAGE + 2
        (index,) = struct.unpack("<H", os.pread(self.memory, 2, at))
        os.pwrite(self.memory, struct.pack("<H", (index + by) & 0xFFFF), at)
        self.write(NOTIFY + 4 * number, number)
