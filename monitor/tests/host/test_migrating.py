"""Guests of a lender that migrate: their processes log what the device writes, save the device and
load one, in their sandbox, over processes and lenders that end. Guests have 128 pages."""

import contextlib
import fcntl
import os
import struct
import time

import pytest
from kept import layout
from moving import ALL, EACH_WAY, WAYS, continues, kill, with_pages
from tenants import eventually, go_on, process_of, read_target, stop
from test_strict import GIVEN, STRICT
from vhost_client import (
    ADD_MEM_REG,
    BUFFERS,
    BY_MESSAGES,
    CHECK_DEVICE_STATE,
    DEFLATE,
    FEATURES,
    GET_CONFIG,
    HAS_PROTOCOL,
    INFLATE,
    LOG_ALL,
    NEXT,
    PAGE,
    REGIONS,
    SET_CONFIG,
    SET_FEATURES,
    SET_LOG_BASE,
    VRING_KICK,
    Client,
)
from vhost_demands import demand_served, word
from vhost_logs import log_base, log_file, logged, page_of_used, set_logging
from vhost_moves import (
    BADLY,
    FINE,
    LOAD,
    OF_CLIENT,
    PROTOCOL,
    SAVE,
    SUM,
    WELL,
    WRONG,
    ask,
    load,
    saved,
    stopped,
    sum_of,
)
from waiting import seconds_of

# The number of the memfd in a process that has what is kept.
KEPT_FILE = 190

# Where memory may end at most, whose set is longer than a pipe has room for; and bytes of that.
MOST_SET, MORE_THAN_A_PIPE = 1 << 36, 2 << 20


@EACH_WAY
def test_what_the_device_writes_is_logged(migrating, lend, way):
    """A process that continues doesn't know what the one before has written last: it marks each
    ring."""
    lender, client = migrating()
    file = log_file()
    assert log_base(client, file) == bytes(8)
    set_logging(client, True)
    demand_served(client, INFLATE, GIVEN[:1])
    assert logged(file) == [page_of_used(client, INFLATE)]
    WAYS[way](lender, lend)
    if way in ("killed", "renewed"):
        eventually(lambda: logged(file) == [page_of_used(client, it) for it in range(4)])
        client.called(INFLATE)
    demand_served(client, INFLATE, GIVEN[1:2])
    assert logged(file) == [page_of_used(client, INFLATE)]


def test_another_process_marks_the_used_rings_that_are_logged_alone(migrating, lend):
    """Neither that of a queue that is stopped, nor any without the feature."""
    lender, client = migrating()
    file = log_file()
    assert log_base(client, file) == bytes(8)
    set_logging(client, True)
    client.stop_ring(DEFLATE)
    kill(lender, lend)
    read_target(client)
    assert logged(file) == [page_of_used(client, it) for it in range(4) if it != DEFLATE]
    client.accepted(SET_FEATURES, word(FEATURES | HAS_PROTOCOL))
    kill(lender, lend)
    read_target(client)
    assert logged(file) == []


def test_another_program_knows_nothing_of_a_log(migrating):
    """What a process of another program has kept has another serial: the log of before isn't its,
    and the file that had its number may be another one."""
    lender, client = migrating()
    file = log_file()
    assert log_base(client, file) == bytes(8)
    set_logging(client, True)
    process = process_of(lender, "a")
    stop(process)
    with open(f"/proc/{process}/fd/{KEPT_FILE}", "r+b", buffering=0) as kept:
        _, at, _, step, _ = layout()["moves.serial"]
        for it in range(2):
            os.pwrite(kept.fileno(), struct.pack("<Q", 1 << 40), at + it * step)
    kill(lender, None)
    assert client.called(INFLATE) > 0
    demand_served(client, INFLATE, GIVEN[:1])
    assert logged(file) == []


@EACH_WAY
def test_a_balloon_continues_on_another_host(migrating, lend, way):
    """Its lender alone sets the target there; a process that ends before the queues run, or after
    that, changes nothing."""
    source, client = migrating()
    with_pages(source, client, GIVEN[:40])
    bases, data = stopped(client), saved(client)
    lender, other = migrating(starts=False)
    stop(lender.process.pid)
    assert load(other, data)
    assert read_target(other)[12:16] == bytes(4)
    go_on(lender.process.pid)
    lender = WAYS[way](lender, lend)
    assert load(other, saved(other))  # once more, as a guest that stays paused migrates twice
    continues(other, client, bases)
    lender.become("a", ready=1, ballooned=40, pages=ALL, cooperates=1)
    assert [it for it in other.holes() if it in GIVEN] == GIVEN[:40]
    lender = WAYS[way](lender, lend)
    lender.become("a", ready=1, ballooned=40)
    assert other.called(INFLATE) > 0
    demand_served(other, INFLATE, GIVEN[40:41])
    lender.become("a", ballooned=41, cooperates=1)


def large(migrating, starts):
    """Returns a guest whose memory ends where it may at most: its state is longer than a pipe."""
    lender, client = migrating(starts=False)
    client.negotiate(protocol=PROTOCOL)
    if starts:
        client.accepted(ADD_MEM_REG, client.region_body(0), [client.files[0]])
        place = struct.pack("<QQQQQ", 0, MOST_SET - PAGE, PAGE, REGIONS[1][1], 0)
        client.accepted(ADD_MEM_REG, place, client.files[1:])
        client.go_on()
        demand_served(client, INFLATE, [MOST_SET // PAGE - 1])
    return lender, client


def read_all(file):
    """Returns all bytes of a pipe."""
    with open(file, "rb") as its:
        return its.read()


@EACH_WAY
def test_a_process_that_ends_while_its_device_is_saved(migrating, lend, way):
    lender, client = large(migrating, True)
    stopped(client)
    ours, theirs = os.pipe()
    assert ask(client, theirs, SAVE) == WELL
    first = os.read(ours, 100)
    eventually(lambda: fcntl.ioctl(ours, 0x541B, bytes(4)) != bytes(4))  # FIONREAD
    lender.hear()
    WAYS[way](lender, lend)
    data = first + read_all(ours)
    assert client.send(CHECK_DEVICE_STATE) == FINE
    assert len(data) > MORE_THAN_A_PIPE and data[-SUM:] == sum_of(data[:-SUM])


@EACH_WAY
def test_a_process_that_ends_while_a_device_is_loaded(migrating, lend, way):
    _, client = large(migrating, True)
    stopped(client)
    data = saved(client)
    lender, other = large(migrating, False)
    theirs, ours = os.pipe()
    assert ask(other, theirs, LOAD) == WELL
    part = 1 << 16
    os.write(ours, data[:part])
    eventually(lambda: fcntl.ioctl(ours, 0x541B, bytes(4)) == bytes(4))
    lender.hear()
    WAYS[way](lender, lend)
    with open(ours, "wb") as file:
        file.write(data[part:])
    assert other.send(CHECK_DEVICE_STATE) == FINE


def test_states_and_pipes_that_are_none(migrating):
    """They are refused by name, in the sandbox, and harm nobody."""
    lender, client = migrating()
    assert ask(client, os.pipe()[1], SAVE) == BADLY
    with_pages(lender, client, GIVEN[:2])
    bases, data = stopped(client), saved(client)
    assert not load(client, data[:-1] + b"x") and not load(client, b"")
    for file in (os.memfd_create("state"), os.eventfd(0), os.open("/dev/zero", os.O_RDWR)):
        assert ask(client, file, LOAD) == BADLY
    ours, theirs = os.pipe()
    os.close(ours)
    assert ask(client, theirs, SAVE) == WELL and client.send(CHECK_DEVICE_STATE) == WRONG

    def is_said(words):
        lender.hear()
        return any(it.startswith("a: ") and words in it for it in lender.said())

    for words in ("while queues run", "its sum is wrong", "is none", "no pipe", "nobody takes"):
        eventually(lambda it=words: is_said(it), lender.said)
    client.go_on(bases)
    lender.become("a", ready=1, ballooned=2)


# Files and bytes of them that are no log, and what is said.
NO_LOGS = {
    "a pipe": (lambda: os.pipe()[1], 4096, "is in no plain file"),
    "no bytes": (log_file, 0, "has no bytes"),
    "a byte more": (lambda: log_file(4096), 4097, "ends after its file"),
    "read only": (lambda: os.open(f"/proc/self/fd/{log_file()}", os.O_RDONLY), 1, "to be written"),
}


@pytest.mark.parametrize("file, size, words", NO_LOGS.values(), ids=NO_LOGS)
def test_a_log_that_is_none(migrating, file, size, words):
    lender, client = migrating()
    with contextlib.suppress(ConnectionResetError, BrokenPipeError):
        client.send(SET_LOG_BASE, struct.pack("<QQ", size, 0), [file()], flags=1)
    lender.become("a", here=0)

    def is_named():
        lender.hear()
        return [it for it in lender.said() if it.startswith("refused a:") and words in it]

    eventually(is_named, lender.said)


def test_a_log_that_is_cut_off_ends_its_client_alone(migrating, tmp_path):
    lender, client = migrating()
    file = os.open(tmp_path, os.O_TMPFILE | os.O_RDWR)
    os.truncate(file, 16384)
    if log_base(client, file) != bytes(8):
        pytest.skip("no file system of a known sort is there")
    set_logging(client, True)
    os.truncate(file, 0)
    client.post_pages(INFLATE, GIVEN[:1])
    lender.become("a", here=0)
    lender.hear()
    assert "refused a: its memory's file has been cut off" in " ".join(lender.said())


# Where which bytes are written: a target, and the commands to ask for statistics and to keep pages
# (docs/LINUX.md, "The control area").
TARGET, ASK, KEEP = (0, struct.pack("<I", 5)), *((20, struct.pack("<II", 1, it)) for it in (1, 2))


def test_the_control_area(migrating):
    """A client reads it, and asks for statistics. The lender alone has control of the balloon."""
    lender, client = migrating()
    with_pages(lender, client, GIVEN[:3])
    area = client.send(GET_CONFIG, struct.pack("<III", 0, 48, 0) + bytes(48))[12:]
    assert struct.unpack_from("<4sIII", area, 16) == (b"VBCA", 1, 3, 3)
    assert struct.unpack_from("<I", area, 40) == (2,)

    def write(at, data):
        return client.send(SET_CONFIG, struct.pack("<III", at, len(data), OF_CLIENT) + data)

    assert [write(*it) for it in (TARGET, KEEP)] == [WRONG] * 2
    lender.tells("a: the lender alone has control")
    assert write(*ASK) == FINE
    lender.become("a", ballooned=3, asked=3)


# Numbers of pages that a process serves in a turn at most; pieces of a deflate, and pages with the
# numbers of each.
MOST_PAGES, PIECES, PAGES_OF_PIECE = 1024, 8, 40


def test_a_deflate_that_is_put_off_amid_its_pages_costs_nothing(lend):
    """It continues once nothing is logged any longer."""
    lender = lend(2, *STRICT)
    client = Client(lender.add("a"), lender.said)
    client.begin(PROTOCOL | BY_MESSAGES)
    client.start()
    client.post_pages(INFLATE, GIVEN[:1])
    lender.become("a", ballooned=1)
    assert log_base(client, log_file()) == bytes(8)
    numbers = struct.pack("<I", GIVEN[0]) * (PAGES_OF_PIECE * PAGE // 4)
    client.write(BUFFERS, numbers)
    for head in range(PIECES):
        follows = (NEXT, head + 1) if head + 1 < PIECES else ()
        client.describe(DEFLATE, head, BUFFERS, len(numbers), *follows)
    client.publish(DEFLATE, 0)
    logs = struct.pack("<Q", FEATURES | HAS_PROTOCOL | LOG_ALL)
    messages = ((VRING_KICK, struct.pack("<II", DEFLATE, 0)), (SET_FEATURES, logs))
    client.socket.sendall(b"".join(struct.pack("<III", it, 1, 8) + body for it, body in messages))
    lender.become("a", deflated=2 * MOST_PAGES)
    process = process_of(lender, "a")
    before = seconds_of(process)
    time.sleep(1)
    assert seconds_of(process) < before + 0.05
    client.accepted(SET_FEATURES, word(FEATURES | HAS_PROTOCOL))
    eventually(lambda: client.is_all_used(DEFLATE))
    lender.become("a", ballooned=0, waits="nothing")
    client.leave()
