"""Tests of a host of many guests, one of whose clients sends each message in each size, in each
order, and at random: the most that it does is end its own connection, while another client is
served, and nothing is left of it."""

import os
import struct
import subprocess
import time

import pytest
import linux_host
import linux_kit
from delays import MOST_DELAY, delay_beside
from tenants import process_of
from vhost_client import (
    ADD_MEM_REG,
    Client,
    FEATURES,
    GET_CONFIG,
    GET_FEATURES,
    GET_MAX_MEM_SLOTS,
    GET_PROTOCOL_FEATURES,
    GET_QUEUE_NUM,
    GET_STATUS,
    GET_VRING_BASE,
    HAS_PROTOCOL,
    INFLATE,
    OFFERED,
    PAGE,
    PAGES_OF_REGION,
    REGIONS,
    REM_MEM_REG,
    RESET_DEVICE,
    RESET_OWNER,
    SET_BACKEND_REQ_FD,
    SET_CONFIG,
    SET_FEATURES,
    SET_MEM_TABLE,
    SET_OWNER,
    SET_PROTOCOL_FEATURES,
    SET_STATUS,
    SET_VRING_ADDR,
    SET_VRING_BASE,
    SET_VRING_CALL,
    SET_VRING_ENABLE,
    SET_VRING_ERR,
    SET_VRING_KICK,
    SET_VRING_NUM,
    VRING_KICK,
)
from waiting import eventually, patience_from_now

# Messages at random, and the seats whose clients send them.
MESSAGES, SEATS = int(os.environ.get("MESSAGES", 10**6)), 8

# MiB that the host's process may grow by while it serves a million messages.
GROWTH = 24

# Each message as QEMU's document has it: its body, and which files come beside it (regions by 0 and
# 1, an event, a socket).
USER = REGIONS[0][1]
REGION = struct.pack("<QQQQ", REGIONS[0][0], PAGES_OF_REGION * PAGE, USER, 0)
WORD, STATE = struct.pack("<Q", 0), struct.pack("<II", 0, 0)
WELL = {
    GET_FEATURES: (b"", ()),
    SET_FEATURES: (struct.pack("<Q", FEATURES | HAS_PROTOCOL), ()),
    SET_OWNER: (b"", ()),
    RESET_OWNER: (b"", ()),
    SET_MEM_TABLE: (struct.pack("<II", 1, 0) + REGION, ("region",)),
    SET_VRING_NUM: (struct.pack("<II", 0, 8), ()),
    SET_VRING_ADDR: (struct.pack("<IIQQQQ", 0, 0, USER, USER + 2 * PAGE, USER + PAGE, 0), ()),
    SET_VRING_BASE: (STATE, ()),
    GET_VRING_BASE: (STATE, ()),
    SET_VRING_KICK: (WORD, ("event",)),
    SET_VRING_CALL: (WORD, ("event",)),
    SET_VRING_ERR: (WORD, ("event",)),
    GET_PROTOCOL_FEATURES: (b"", ()),
    SET_PROTOCOL_FEATURES: (struct.pack("<Q", OFFERED), ()),
    GET_QUEUE_NUM: (b"", ()),
    SET_VRING_ENABLE: (struct.pack("<II", 0, 1), ()),
    SET_BACKEND_REQ_FD: (b"", ("socket",)),
    GET_CONFIG: (struct.pack("<III", 0, 8, 0) + bytes(8), ()),
    SET_CONFIG: (struct.pack("<III", 4, 4, 0) + bytes(4), ()),
    RESET_DEVICE: (b"", ()),
    VRING_KICK: (STATE, ()),
    GET_MAX_MEM_SLOTS: (b"", ()),
    ADD_MEM_REG: (WORD + REGION, ("region",)),
    REM_MEM_REG: (WORD + REGION, ()),
    SET_STATUS: (struct.pack("<Q", 15), ()),
    GET_STATUS: (b"", ()),
}

# A table may have more room than it has regions, as virtio_uml sends it; a region that goes may
# have its file with it.
LONGER, MAY_HAVE_A_FILE = {SET_MEM_TABLE}, {REM_MEM_REG}
ANSWERED = {
    GET_FEATURES,
    GET_VRING_BASE,
    GET_PROTOCOL_FEATURES,
    GET_QUEUE_NUM,
    GET_CONFIG,
    GET_MAX_MEM_SLOTS,
    GET_STATUS,
}


# The length of each message in each size that may matter, and how many files come with it.
SIZES = [
    (number, size, len(names))
    for number, (body, names) in WELL.items()
    for size in sorted(
        {0, 1, 7, 8, len(body) - 1, len(body), len(body) + 1, 40, 264, 268, 512} - {-1}
    )
]
FILES = [
    (number, len(body), count)
    for number, (body, _) in WELL.items()
    for count in (0, 1, 2, 8, 9, 20)
]
UNKNOWN = [
    (number, size)
    for number in (*(it for it in range(64) if it not in WELL), 99, 2**32 - 1)
    for size in (0, 8, 40)
]

# The bit of the protocol feature by which a message is negotiated.
NEGOTIATED = {
    GET_QUEUE_NUM: 0,
    SET_BACKEND_REQ_FD: 5,
    GET_CONFIG: 9,
    SET_CONFIG: 9,
    RESET_DEVICE: 13,
    VRING_KICK: 14,
    GET_MAX_MEM_SLOTS: 15,
    ADD_MEM_REG: 15,
    REM_MEM_REG: 15,
    SET_STATUS: 16,
    GET_STATUS: 16,
}


class Seats:
    """A host with one client that is well, and seats for others."""

    def __init__(self, program, folder):
        little = {"ASAN_OPTIONS": "quarantine_size_mb=4"}
        self.folder = folder
        self.host = linux_host.Host(
            program, folder, 4096, ("--lines", "1000000"), environment=little
        )
        self.well = Client(self.host.add("well"), self.host.why)
        self.well.start()
        self.paths = [self.host.add(f"seat{it}") for it in range(SEATS)]
        self.event, self.socket = os.eventfd(0, os.EFD_NONBLOCK), self.well.own.fileno()

    def close(self):
        """Ends all; returns the host's status, and what it said that isn't about a client that was
        refused."""
        self.host.process.stdout.close()
        status = self.host.close()
        self.well.leave()
        os.close(self.event)
        with open(self.host.log, encoding="latin-1") as log:
            return status, [
                it
                for it in log
                if not it.startswith(("refused ", "gone ", "seat", "well: the client can't"))
            ]

    def wait_for(self, gone):
        """Waits until clients have gone, without a rest."""
        end = patience_from_now()
        while not gone(self.host.guests()):
            assert time.monotonic() < end, "a client doesn't go"

    def held(self):
        """Returns how many files the host has open once all clients of the seats have gone."""
        self.wait_for(
            lambda guests: not any(it["here"] for name, it in guests.items() if name != "well")
        )
        return len(os.listdir(f"/proc/{self.host.process.pid}/fd"))

    def memory(self):
        """Returns the MiB of the host's process."""
        with open(f"/proc/{self.host.process.pid}/statm", encoding="ascii") as numbers:
            return int(numbers.read().split()[1]) / 256

    def serves(self):
        """Demands that the client that is well is served."""
        self.well.post_pages(INFLATE, [REGIONS[1][0] // PAGE])
        end = patience_from_now()
        while self.well.told() != INFLATE:  # the host reminds it of its target
            assert time.monotonic() < end, "the client that is well isn't served"

    def come(self):
        """Returns a client that has negotiated all protocol features."""
        self.wait_for(lambda guests: not guests["seat0"]["here"])
        client = Client(self.paths[0], self.host.why)
        client.send(SET_PROTOCOL_FEATURES, struct.pack("<Q", OFFERED), flags=1)
        return client

    def file(self, client, name):
        """Returns a file of this sort."""
        return {"region": client.files[0], "event": self.event, "socket": self.socket}[name]

    def prepared(self, number):
        """Returns a client of whom this message, if it is well-formed, has to be taken."""
        client = self.come()
        if number in (REM_MEM_REG, SET_STATUS):
            client.accepted(SET_FEATURES, WELL[SET_FEATURES][0])
        if number == REM_MEM_REG:
            client.accepted(ADD_MEM_REG, WELL[ADD_MEM_REG][0], [client.files[0]])
        return client

    def chance(self, program, messages, seed):
        """Sends `messages` messages, by a client at each seat; returns what the clients say."""
        running = [
            subprocess.Popen(
                [program, path, str(messages // SEATS), str(seed * SEATS + it)],
                stdout=subprocess.PIPE,
                text=True,
            )
            for it, path in enumerate(self.paths)
        ]
        try:
            said = [it.communicate()[0].strip() for it in running]
            assert [it.returncode for it in running] == [0] * SEATS, self.host.why()
            return "; ".join(said)
        finally:
            for it in running:
                it.kill()


@pytest.fixture(scope="module")
def all_seats(tmp_path_factory):
    """One host for all of these tests; it has to end well."""
    seats = Seats(linux_kit.built("checked/vhost_user_host"), str(tmp_path_factory.mktemp("every")))
    yield seats
    assert seats.close() == (0, [])


@pytest.fixture
def seats(all_seats):
    """The same: after each test the client that is well is served, and the host has no file more
    than before."""
    before = all_seats.held()
    yield all_seats
    all_seats.serves()
    end = patience_from_now()
    while (
        all_seats.held() > before
    ):  # its process ends after its client; that of the test before may end only now
        assert (
            time.monotonic() < end
        ), f"the host has {all_seats.held()} files open, and had {before}"
        time.sleep(0.01)


def is_served(client, number, body, files):
    """Sends a message; returns whether the client is served after it."""
    try:
        client.send(number, body, files, flags=1)
        if number in ANSWERED:
            client.receive()
        return client.send(GET_FEATURES, flags=1) or client.receive() is not None
    except (BrokenPipeError, ConnectionResetError):
        return False


# What a process of a lender's doesn't offer: a log, and a device that moves.
NOT_OFFERED = {6: "SET_LOG_BASE", 42: "SET_DEVICE_STATE_FD", 43: "CHECK_DEVICE_STATE"}


@pytest.mark.parametrize("number, size, count", (*SIZES, *FILES))
def test_each_message_in_each_size_with_any_files(seats, number, size, count):
    (body, names), client = WELL[number], seats.prepared(number)
    files = [seats.file(client, (*names, "region")[min(it, len(names))]) for it in range(count)]
    right_size = size == len(body) or (number in LONGER and len(body) < size <= 264)
    right_count = count == len(names) or (number in MAY_HAVE_A_FILE and count == 1)
    served = is_served(client, number, body[:size].ljust(size, b"\0"), files)
    client.leave()
    assert served == (right_size and right_count), seats.host.why_of("seat0")


def refused_for(seats, words):
    """Waits until the host has said why, which comes after the client has gone."""
    why = lambda: seats.host.why_of("seat0")
    eventually(lambda: words in why(), why)


@pytest.mark.parametrize("number, size", UNKNOWN)
def test_messages_that_are_unknown(seats, number, size):
    """So are those of a migration here: whatever their size, they are refused by their names."""
    client = seats.come()
    assert not is_served(client, number, bytes(size), [])
    refused_for(seats, NOT_OFFERED.get(number, f"message {number} is unknown"))
    client.leave()


@pytest.mark.parametrize("number", NEGOTIATED)
def test_messages_that_are_not_negotiated(seats, number):
    client, (body, names) = seats.come(), WELL[number]
    client.send(
        SET_PROTOCOL_FEATURES, struct.pack("<Q", OFFERED & ~(1 << NEGOTIATED[number])), flags=1
    )
    assert not is_served(client, number, body, [seats.file(client, it) for it in names])
    refused_for(seats, "isn't negotiated")
    client.leave()


@pytest.mark.parametrize("number", [it for it in WELL if it != SET_PROTOCOL_FEATURES])
def test_messages_that_need_no_other_feature(seats, number):
    """Of the protocol's features that of a message is enough, or none where it has none."""
    client, (body, names) = seats.prepared(number), WELL[number]
    needed = 1 << NEGOTIATED[number] if number in NEGOTIATED else 0
    client.send(SET_PROTOCOL_FEATURES, struct.pack("<Q", needed), flags=1)
    served = is_served(client, number, body, [seats.file(client, it) for it in names])
    client.leave()
    assert served, seats.host.why_of("seat0")


@pytest.mark.parametrize("first", WELL)
def test_each_message_before_and_after_each_other(seats, first):
    for second in WELL:
        client = seats.come()
        try:
            for number in (first, second, first):
                body, names = WELL[number]
                client.send(number, body, [seats.file(client, it) for it in names], flags=1)
        except (BrokenPipeError, ConnectionResetError):
            pass
        client.leave()


@pytest.mark.timeout(900)
def test_a_million_random_messages(seats):
    program = linux_kit.built("plain/vhost_user_chance")
    seats.chance(program, MESSAGES // 10, 1)
    before, said = seats.memory(), []
    send = lambda rounds: said.append(seats.chance(program, MESSAGES, 2))
    delay = delay_beside(send, seats.well, process_of(seats.host, "well"), seconds=None)
    print(f"{said[0]}; a guest beside them is delayed by {delay:.2f} ms at most")
    assert seats.memory() - before < GROWTH, "the host's process has grown"
    assert delay < MOST_DELAY
