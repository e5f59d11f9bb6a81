"""Tests of the log of what a device writes, which a client reads that migrates its guest."""

import fcntl
import os
import struct

import pytest
from vhost_client import (
    CHECK_DEVICE_STATE,
    DEFLATE,
    FEATURES,
    HAS_PROTOCOL,
    INFLATE,
    LOG_ALL,
    MIGRATION,
    PAGE,
    QEMU_PROTOCOL,
    REGIONS,
    SET_FEATURES,
    SET_LOG_BASE,
    SET_VRING_ADDR,
    STATISTICS,
)
from vhost_demands import FIRST, demand_refused, demand_served, post_statistics, word
from vhost_logs import (
    LOG_BYTES,
    LOG_OFFSET,
    LOGGED,
    address_body,
    log_base,
    log_file,
    logged,
    page_of_used,
    set_logging,
)
from vhost_moves import LOAD, PROTOCOL, WELL, WRONG, ask, stopped
from waiting import eventually

# Flags of seals (linux/fcntl.h).
SEAL_WRITE, SEAL_FUTURE_WRITE = 8, 16


@pytest.fixture
def begin(start_by_events):
    """Returns a client whose queues run, and a log that it has handed over."""

    def make():
        client, file = start_by_events(protocol=QEMU_PROTOCOL | MIGRATION), log_file()
        assert log_base(client, file) == bytes(8)
        return client, file

    return make


def test_each_used_ring_that_is_written(begin):
    client, file = begin()
    set_logging(client, True)
    demand_served(client, INFLATE, [FIRST])
    assert logged(file) == [page_of_used(client, INFLATE)]
    demand_served(client, DEFLATE, [FIRST])
    assert logged(file) == [page_of_used(client, DEFLATE)]
    post_statistics(client, 11)
    eventually(lambda: client.backend.statistics()[0] == 1, client.why)
    assert logged(file) == []
    assert client.backend.ask("ask") == "asked"
    assert logged(file) == [page_of_used(client, STATISTICS)]


def test_what_is_not_to_be_logged(begin):
    client, file = begin()
    demand_served(client, INFLATE, [FIRST])
    assert logged(file) == []
    set_logging(client, True, [DEFLATE])
    demand_served(client, INFLATE, [FIRST + 1])
    assert logged(file) == []
    set_logging(client, True)
    client.accepted(SET_FEATURES, word(FEATURES | HAS_PROTOCOL))
    demand_served(client, INFLATE, [FIRST + 2])
    assert logged(file) == []
    set_logging(client, False)
    demand_served(client, INFLATE, [FIRST + 3])
    assert logged(file) == []


def test_a_log_in_place_of_another(begin):
    client, file = begin()
    set_logging(client, True)
    files, other = client.open_files(), log_file()
    assert log_base(client, log_file(LOG_BYTES), offset=0) == bytes(8)
    assert log_base(client, other) == bytes(8)
    demand_served(client, INFLATE, [FIRST])
    assert (logged(file), logged(other)) == ([], [page_of_used(client, INFLATE)])
    assert (client.open_files(), client.mappings("log")) == (files, 1)


def test_a_log_ends_with_its_session(serve):
    """So does a pipe for the device's state: the next session of the connection has neither."""
    client = serve()
    client.begin(PROTOCOL)
    files = client.open_files()
    client.start_by_events(protocol=PROTOCOL)
    file = log_file()
    assert log_base(client, file) == bytes(8)
    stopped(client)
    theirs, ours = os.pipe()
    assert ask(client, theirs, LOAD) == WELL
    client.begin(PROTOCOL)
    assert (client.open_files(), client.mappings("log")) == (files, 0)
    assert client.send(CHECK_DEVICE_STATE) == WRONG and "no state of a device" in client.why()
    client.start_by_events(protocol=PROTOCOL)
    set_logging(client, True)
    demand_served(client, INFLATE, [FIRST])
    assert logged(file) == []
    os.close(ours)


@pytest.mark.parametrize("before, pages", ((8, 2), (12, 1)), ids=("amid", "up to"))
def test_a_ring_over_two_pages(serve_well, before, pages):
    """A used element lies amid two pages, or ends where one does: the next one isn't written."""
    client = serve_well()
    client.negotiate(protocol=QEMU_PROTOCOL | MIGRATION)
    client.add_memory()
    file, size = log_file(), 1024
    assert log_base(client, file) == bytes(8)
    user, table = REGIONS[0][1], REGIONS[0][0]
    client.write(table, bytes(10 * PAGE))
    set_logging(client, True, [])
    # The index and the first element have 4 and 8 bytes.
    used = table + 8 * PAGE - before
    client.tell_place(INFLATE, size)
    body = struct.pack("<IIQQQQ", INFLATE, LOGGED, user, user + used - table, user + 5 * PAGE, used)
    client.accepted(SET_VRING_ADDR, body)
    client.give_events(INFLATE)
    client.enable(INFLATE)
    client.write(table + 40 * PAGE, struct.pack("<I", FIRST))
    client.write(table, struct.pack("<QIHH", table + 40 * PAGE, 4, 0, 0))
    client.write(table + 5 * PAGE, struct.pack("<HHH", 0, 1, 0))
    client.kick(INFLATE)
    assert client.called(INFLATE) == 1
    assert logged(file) == [used // PAGE + it for it in range(pages)]


# Logs that are none: what is said, how large the file is, and what the message says of it: size
# and offset.
NOWHERE, LATER = "ends where no file does", "ends after its file"
NO_LOGS = {
    "no bytes": ("the log of 0 bytes from 0 on has no bytes", LOG_BYTES, 0, 0),
    "none at the end": ("has no bytes", LOG_BYTES, 0, LOG_BYTES),
    "a byte more": (LATER, LOG_BYTES, LOG_BYTES + 1, 0),
    "a page later": (LATER, LOG_BYTES, LOG_BYTES, PAGE),
    "a byte after the end": (f"of 1 bytes from {PAGE} on {LATER}", LOG_BYTES, 1, PAGE),
    "the largest": (LATER, LOG_BYTES, 2**63 - 1, 0),
    "an empty file": (LATER, 0, 8, 0),
    "within a page": ("begins within a page", LOG_BYTES, 1, 1),
    "larger than any": (NOWHERE, LOG_BYTES, 2**64 - 1, 0),
    "a byte more than any": (NOWHERE, LOG_BYTES, 1, 2**63 - 1),
    "a negative offset": (NOWHERE, LOG_BYTES, 8, 2**64 - PAGE),
    "an end that overflows": (NOWHERE, LOG_BYTES, 2 * PAGE, 2**64 - PAGE),
    "an end at 0": (NOWHERE, LOG_BYTES, 2**63, 2**63),
}


def demand_no_log(serve, file, words, size=LOG_BYTES, offset=0):
    """Demands that a client's service ends with these words as it hands this log over."""
    client = serve()
    client.start_by_events(protocol=QEMU_PROTOCOL | MIGRATION)
    client.send(SET_LOG_BASE, struct.pack("<QQ", size, offset), [file], flags=1)
    demand_refused(client, words)


@pytest.mark.parametrize("words, length, size, offset", NO_LOGS.values(), ids=NO_LOGS)
def test_a_log_that_is_none(serve, words, length, size, offset):
    demand_no_log(serve, log_file(length), words, size, offset)


@pytest.mark.parametrize("seal", (SEAL_WRITE, SEAL_FUTURE_WRITE))
def test_a_log_that_nobody_may_write(serve, seal):
    file = log_file()
    fcntl.fcntl(file, fcntl.F_ADD_SEALS, seal)
    demand_no_log(serve, file, "can't be mapped to be written")


def test_a_log_that_the_client_may_only_read(serve):
    file = log_file()
    demand_no_log(serve, os.open(f"/proc/self/fd/{file}", os.O_RDONLY), "to be written")


def test_a_log_that_is_no_file(serve):
    for file in (os.pipe()[1], os.eventfd(0), os.open("/dev/zero", os.O_RDWR)):
        demand_no_log(serve, file, "is in no plain file")


def test_a_log_cannot_be_cut_off(begin):
    client, file = begin()
    with pytest.raises(PermissionError):
        os.truncate(file, LOG_OFFSET)
    set_logging(client, True)
    demand_served(client, INFLATE, [FIRST])


def test_a_log_that_is_cut_off(serve):
    """A file that takes no seal may be cut off: that ends its client alone."""
    client = serve()
    client.start_by_events(protocol=QEMU_PROTOCOL | MIGRATION)
    file = os.open(client.folder.name, os.O_TMPFILE | os.O_RDWR)
    os.truncate(file, LOG_OFFSET + LOG_BYTES)
    if log_base(client, file) != bytes(8):
        pytest.skip("no file system of a known sort is there")
    set_logging(client, True)
    os.truncate(file, 0)
    client.post_pages(INFLATE, [FIRST])
    demand_refused(client, "has been cut off")


def test_a_log_without_a_bit_for_the_ring(serve):
    client, file = serve(), log_file()
    client.start_by_events(protocol=QEMU_PROTOCOL | MIGRATION)
    # The used ring of inflates is on page 0x102, whose bit is in byte 32.
    assert log_base(client, file, 32, LOG_OFFSET) == bytes(8)
    set_logging(client, True)
    client.post_pages(INFLATE, [FIRST])
    demand_refused(client, "the log of 32 bytes has no bit for a page that was written")


def test_a_ring_that_is_logged_elsewhere(serve):
    client = serve()
    client.start_by_events(protocol=QEMU_PROTOCOL | MIGRATION)
    body = address_body(client, INFLATE, LOGGED, log=client.table(INFLATE))
    client.send(SET_VRING_ADDR, body, flags=1)
    demand_refused(client, "queue 0 is to be logged at 0x100000, where its used ring isn't")


def test_other_features_while_queues_run(serve):
    client = serve()
    client.start_by_events(protocol=QEMU_PROTOCOL | MIGRATION)
    features = FEATURES & ~2 | HAS_PROTOCOL | LOG_ALL
    client.send(SET_FEATURES, word(features), flags=1)
    demand_refused(client, "while queues run")
