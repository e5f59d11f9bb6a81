"""Tests of a backend with a hostile client: files that could make it wait or never rest, memory
that could be taken away from under it, turns that are long, and a machine that has no files or no
room left."""

import ctypes
import fcntl
import os
import signal
import socket
import struct
import tempfile
import time

import pytest
from vhost_client import (
    ADD_MEM_REG,
    BUFFERS,
    GET_STATUS,
    GET_VRING_BASE,
    INFLATE,
    PAGE,
    PAGES_OF_REGION,
    QEMU_PROTOCOL,
    SET_BACKEND_REQ_FD,
    SET_CONFIG,
    SET_VRING_CALL,
    SET_VRING_ENABLE,
    SET_VRING_ERR,
    SET_VRING_KICK,
    VRING_KICK,
)
from vhost_demands import FIRST, demand_refused, demand_served, word

# Chains that a notice may serve, and pages that a chain of Linux names.
TURN, PAGES_OF_CHAIN = 64, 256

# Counts of an eventfd: none, some, and the most that there can be.
COUNTS = (0, 1, 5, 2**64 - 2)

# A seal (fcntl(2)), and memory of large pages (memfd_create(2)).
SHRINK, HUGE = 2, 4


def timer():
    """Returns a timerfd that has always something to read."""
    library = ctypes.CDLL(None, use_errno=True)
    its = library.timerfd_create(time.CLOCK_MONOTONIC, 0)
    library.timerfd_settime(its, 0, struct.pack("<qqqq", 0, 1, 0, 1), None)
    return its


def semaphore(count):
    """Returns an eventfd whose reads take one of its count each."""
    its = os.eventfd(0, os.EFD_SEMAPHORE)
    os.eventfd_write(its, count)
    return its


@pytest.fixture
def begin(serve):
    """Returns a client that doesn't have to end well, whose driver is ready."""

    def make(**kept):
        client = serve(**kept)
        client.start_by_events()
        return client

    return make


def demand_kick_refused(client, file):
    """Demands that this file isn't taken for a kick, and closes it."""
    client.send(SET_VRING_KICK, word(INFLATE), [file], flags=1)
    demand_refused(client, "a file of queue 0 is no eventfd that a read empties")
    os.close(file)


def socket_of(family, kind):
    """Returns a function that makes a socket of this sort."""
    return lambda: socket.socket(family, kind).detach()


def end_of(pair, number):
    """Returns a function that makes such a pair of files, and returns one; the other one is
    closed."""

    def make():
        ends = [it if isinstance(it, int) else it.detach() for it in pair()]
        os.close(ends.pop(1 - number))
        return ends[0]

    return make


NO_EVENTFDS = {
    "pipe that is read": end_of(os.pipe, 0),
    "pipe that is written": end_of(os.pipe, 1),
    "socket": end_of(socket.socketpair, 0),
    "timer": timer,
    "memory": lambda: os.memfd_create("kick"),
}
NO_STREAMS = {
    "TCP": socket_of(socket.AF_INET, socket.SOCK_STREAM),
    "datagrams": socket_of(socket.AF_UNIX, socket.SOCK_DGRAM),
    "timer": timer,
    "null": lambda: os.open("/dev/null", os.O_RDWR),
}


@pytest.mark.parametrize("sort", NO_EVENTFDS)
def test_a_kick_that_is_no_eventfd(begin, sort):
    demand_kick_refused(begin(), NO_EVENTFDS[sort]())


def test_a_kick_whose_name_is_that_of_an_eventfd(begin, tmp_path):
    demand_kick_refused(
        begin(), os.open(f"{tmp_path}/anon_inode:[eventfd]", os.O_RDWR | os.O_CREAT)
    )


@pytest.mark.parametrize("count", COUNTS)
def test_a_kick_that_is_a_semaphore(begin, count):
    demand_kick_refused(begin(), semaphore(count))


@pytest.fixture
def begin_on_old_kernel(begin, wrong_program):
    """The same under a kernel that doesn't say whether an eventfd is a semaphore."""
    return lambda: begin(built=wrong_program, environment={"BACKEND_WRONG": "old-kernel"})


@pytest.mark.parametrize("count", COUNTS)
def test_a_semaphore_under_an_older_kernel(begin_on_old_kernel, count):
    demand_kick_refused(begin_on_old_kernel(), semaphore(count))


@pytest.mark.parametrize("count", COUNTS)
def test_a_kick_under_an_older_kernel(begin_on_old_kernel, count):
    client, event = begin_on_old_kernel(), os.eventfd(0, os.EFD_NONBLOCK)
    os.eventfd_write(event, count)
    client.stop_ring(INFLATE)
    client.accepted(SET_VRING_ENABLE, struct.pack("<II", INFLATE, 0))
    client.accepted(SET_VRING_KICK, word(INFLATE), [event])
    # One that a read empties is taken, and has what it had.
    assert (os.eventfd_read(event) if count else 0) == count
    with pytest.raises(BlockingIOError):
        os.eventfd_read(event)
    assert client.close() == (0, "")
    os.close(event)


@pytest.mark.parametrize("message", (SET_VRING_CALL, SET_VRING_ERR))
@pytest.mark.parametrize("sort", NO_STREAMS)
def test_a_call_of_another_sort(begin, message, sort):
    client, file = begin(), NO_STREAMS[sort]()
    client.send(message, word(INFLATE), [file], flags=1)
    demand_refused(client, "a file of queue 0 is no eventfd, pipe or socket of a stream")
    os.close(file)


@pytest.mark.parametrize("sort", ("TCP", "datagrams"))
def test_a_channel_of_another_sort(begin, sort):
    client, file = begin(), NO_STREAMS[sort]()
    client.send(SET_BACKEND_REQ_FD, b"", [file], flags=1)
    demand_refused(client, "the channel is no socket of a stream")
    os.close(file)


def test_an_old_kick_s_file_is_closed(start_by_events):
    client = start_by_events()
    before = client.open_files()
    for _ in range(5):
        for number in range(4):
            client.give_events(number)
    assert client.open_files() == before


def test_memory_that_is_sealed_cannot_be_cut_off(serve_well):
    client = serve_well()
    os.close(client.files[1])
    client.files[1] = os.memfd_create("region 1", os.MFD_CLOEXEC | os.MFD_ALLOW_SEALING)
    os.write(client.files[1], b"\xff" * PAGES_OF_REGION * PAGE)
    client.start_by_events()
    assert fcntl.fcntl(client.files[1], fcntl.F_GET_SEALS) & SHRINK == SHRINK
    with pytest.raises(PermissionError):
        os.ftruncate(client.files[1], 0)
    demand_served(client, INFLATE, [FIRST])
    assert client.holes() == [FIRST]


@pytest.fixture
def region_of(serve):
    """Hands over one more region, of a file; returns the client."""

    def make(file, size=PAGE):
        client = serve()
        client.negotiate(protocol=QEMU_PROTOCOL)
        client.send(ADD_MEM_REG, struct.pack("<QQQQQ", 0, 0, size, 0, 0), [file], flags=1)
        return client

    return make


@pytest.mark.parametrize(
    "path",
    (
        "/proc/self/mem",
        "/sys/kernel/profiling" if os.path.exists("/sys/kernel/profiling") else "/proc/version",
    ),
)
def test_memory_whose_pages_somebody_else_has(region_of, path):
    with open(path, "rb") as file:
        client = region_of(file.fileno())
        demand_refused(client, "a region of the guest's memory can't be mapped")
        assert "is on a file system of type 0x" in client.lines[0]


def test_memory_that_is_a_plain_file(region_of):
    with tempfile.NamedTemporaryFile(dir=os.environ.get("TMPDIR", "/var/tmp")) as file:
        file.truncate(2 * PAGE)
        client = region_of(file.fileno(), 2 * PAGE)
        assert client.counter("end") == 2
        assert client.close() == (0, "")


def test_a_region_of_half_a_large_page(region_of):
    file = os.memfd_create("large", os.MFD_CLOEXEC | HUGE)
    os.ftruncate(file, 1 << 21)
    client = region_of(file)
    demand_refused(client, "a region of the guest's memory can't be mapped")
    assert client.lines[:1] == ["a region of 4096 bytes isn't whole pages of 2097152"]
    os.close(file)


def test_a_turn_of_many_pages(serve_well):
    client = serve_well()
    client.start(size=256)
    client.write(
        BUFFERS,
        struct.pack(
            f"<{PAGES_OF_CHAIN}I", *(FIRST + it % PAGES_OF_REGION for it in range(PAGES_OF_CHAIN))
        ),
    )
    for head in range(TURN):
        client.describe(INFLATE, head, BUFFERS, 4 * PAGES_OF_CHAIN)
    client.write(client.table(INFLATE) + PAGE, struct.pack(f"<HH{TURN}H", 1, TURN, *range(TURN)))
    asks = struct.pack("<IIIII", VRING_KICK, 1, 8, INFLATE, 0) + struct.pack(
        "<IIIII", GET_VRING_BASE, 1, 8, INFLATE, 0
    )
    client.socket.sendall(asks)
    base = struct.unpack("<II", client.receive()[1])[1]
    # Between the two messages there are a turn for the kick, and one for what that left.
    assert base * PAGES_OF_CHAIN == 2 * 1024


def test_lines_of_a_second(start_by_events):
    client = start_by_events("--lines", "5")
    begin = time.monotonic()
    for target in range(3000):
        client.backend.ask(f"target {target}")
    seconds = int(time.monotonic() - begin) + 2
    with open(client.backend.log, encoding="latin-1") as log:
        said = list(log)
    line, more = (
        "the client can't be told of a change\n",
        "further lines of this second are left out\n",
    )
    assert said[:6] == [line] * 5 + [more]
    assert len(said) <= 6 * seconds
    os.truncate(client.backend.log, 0)


# What a client writes in its own name that is no command, and the line about that; how many lines
# of a second there are where nothing is said (packaging/etc/host.conf has the same), and the last.
NO_COMMAND, NO_AREA = struct.pack("<IIIB", 0, 1, 1, 0), "no control area: a write of 1 bytes at 0\n"
USUAL, LEFT_OUT = 20, "further lines of this second are left out\n"


def test_lines_of_each_second(serve_well):
    """The next second has its own lines."""
    client = serve_well("--lines", "1")
    client.start_by_events()
    for _ in range(3):
        assert client.send(SET_CONFIG, NO_COMMAND) == word(1)
        time.sleep(1.05)
    with open(client.backend.log, encoding="latin-1") as log:
        assert list(log) == 3 * [NO_AREA]
    os.truncate(client.backend.log, 0)


def said_at_once(client):
    """Returns what a backend says of more such writes than it has lines."""
    client.start_by_events()
    process = client.backend.process.pid
    os.kill(process, signal.SIGSTOP)
    for _ in range(USUAL + 5):
        client.send(SET_CONFIG, NO_COMMAND, flags=1)
    os.kill(process, signal.SIGCONT)
    client.send(GET_STATUS)
    with open(client.backend.log, encoding="latin-1") as log:
        return list(log)


def test_lines_of_a_second_where_no_option_says_how_many(serve):
    """Now and then a second ends amid them."""
    wanted = USUAL * [NO_AREA] + [LEFT_OUT]
    assert any(said_at_once(serve()) == wanted for _ in range(3))
