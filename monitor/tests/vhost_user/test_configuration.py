"""Tests of the configuration space and of poison_val, by a client that kicks and is called by
events."""

import struct

import pytest
import vhost_client
from vhost_client import (
    FEATURES,
    GET_CONFIG,
    INFLATE,
    PAGE,
    POISON,
    QEMU_PROTOCOL,
    REPORT,
    RESET_DEVICE,
    SET_CONFIG,
    SET_FEATURES,
    SET_STATUS,
    WRITE,
)
from vhost_demands import FIRST, demand_served, word


def poisoned(serve_well):
    """Returns a client whose driver said that its free pages hold 0xff, and the word of
    PAGE_POISON."""
    client = serve_well("--features", "100000037")
    client.begin(QEMU_PROTOCOL)
    client.accepted(SET_CONFIG, struct.pack("<IIII", 12, 4, 0, 0xFFFFFFFF))
    client.start_by_events(features=FEATURES | POISON)
    return client


def demand_reported(client, page, kept):
    """Posts a report of a page, and demands that its bytes are kept, or gone."""
    before = client.backend.counters()
    client.describe(REPORT, 0, page * PAGE, PAGE, WRITE)
    client.publish(REPORT, 0)
    client.kick(REPORT)
    assert client.called(REPORT) == 1
    counters = client.backend.counters()
    assert [counters[it] - before[it] for it in ("reported", "kept", "discarded")] == [
        1,
        kept,
        1 - kept,
    ]
    assert client.read(page * PAGE, PAGE) == (b"\xff" if kept else b"\0") * PAGE


def test_poisoned_reports_are_kept(serve_well):
    client = poisoned(serve_well)
    demand_reported(client, FIRST, 1)
    demand_served(client, INFLATE, [FIRST + 1])
    assert (client.holes(), client.counter("in_holes")) == ([FIRST + 1], 0)
    client.accepted(SET_CONFIG, struct.pack("<IIII", 12, 4, 0, 0))
    demand_reported(client, FIRST + 2, 0)


def write_whole(client, *words):
    """Writes the whole configuration, as QEMU from 11 on does at each write of the driver; returns
    whether it is taken."""
    return client.send(SET_CONFIG, struct.pack("<IIIIIII", 0, 16, 0, *words)) == bytes(8)


def configuration(client):
    """Returns the words of the configuration."""
    return struct.unpack(
        "<IIIIIII", client.send(GET_CONFIG, struct.pack("<III", 0, 16, 0) + bytes(16))
    )[3:]


def test_the_whole_configuration_at_once(start_by_events, serve_well):
    client = start_by_events()
    assert (client.backend.ask("target 258"), client.told()) == ("ok", None)
    assert write_whole(client, 0xAAAAAAAA, 77, 0xBBBBBBBB, 0xCCCCCCCC)
    assert (client.counter("actual"), client.counter("target")) == (77, 258)
    assert configuration(client) == (258, 77, 0, 0)
    client = poisoned(serve_well)
    assert write_whole(client, 9, 78, 9, 0x11223344)
    assert configuration(client) == (0, 78, 0, 0x11223344)
    demand_reported(client, FIRST, 1)
    assert write_whole(client, 0, 0, 0, 0)
    assert configuration(client) == (0, 0, 0, 0)
    demand_reported(client, FIRST + 1, 0)


# Where a write begins, how many bytes it has, and `actual` and poison_val after it: refused where
# it covers neither.
ACTUAL, POISON_VAL, NEITHER = (0x07060504, 0xFFFFFFFF), (0, 0x0F0E0D0C), (0, 0xFFFFFFFF)
BOTH = (ACTUAL[0], POISON_VAL[1])
WRITES = (
    (4, 4, ACTUAL),
    (0, 8, ACTUAL),
    (4, 8, ACTUAL),
    (0, 15, ACTUAL),
    (3, 12, ACTUAL),
    (12, 4, POISON_VAL),
    (8, 8, POISON_VAL),
    (5, 11, POISON_VAL),
    (0, 16, BOTH),
    (4, 12, BOTH),
    (0, 4, NEITHER),
    (8, 4, NEITHER),
    (0, 0, NEITHER),
    (4, 3, NEITHER),
    (0, 7, NEITHER),
    (5, 7, NEITHER),
    (5, 10, NEITHER),
    (13, 3, NEITHER),
    (6, 6, NEITHER),
)


@pytest.mark.parametrize("offset, size, wanted", WRITES)
def test_a_part_of_the_configuration(serve_well, offset, size, wanted):
    client = poisoned(serve_well)
    body = struct.pack("<III", offset, size, 0) + bytes(range(offset, offset + size))
    assert (client.send(SET_CONFIG, body) == bytes(8)) == (wanted != NEITHER)
    assert configuration(client)[1::2] == wanted


def test_poison_val_is_there_only_where_it_is_offered(start_by_events, serve_well):
    client = start_by_events()
    assert client.send(SET_CONFIG, struct.pack("<IIII", 12, 4, 0, 7)) != bytes(8)
    client = poisoned(serve_well)
    body = struct.pack("<III", 8, 8, 0) + bytes(8)
    answer = client.send(GET_CONFIG, body, flags=1) or client.receive()[1]
    assert answer[12:] == struct.pack("<II", 0, 0xFFFFFFFF)


def test_poison_val_stays_while_no_ring_runs(serve_well):
    client = poisoned(serve_well)
    bases = [client.stop_ring(number) for number in range(4)]
    client.accepted(SET_STATUS, word(0))
    client.accepted(SET_FEATURES, word(FEATURES | POISON | vhost_client.HAS_PROTOCOL))
    client.go_on(bases)
    demand_reported(client, FIRST, 1)
    client.accepted(RESET_DEVICE)
    client.accepted(SET_FEATURES, word(FEATURES | POISON | vhost_client.HAS_PROTOCOL))
    client.go_on()
    demand_reported(client, FIRST + 1, 0)


def test_poison_val_is_kept_in_the_state(serve_well):
    client = serve_well()
    words = ("--features", "100000037", "--state", client.file("state"))
    client.restart(*words)
    client.connect()
    client.begin(QEMU_PROTOCOL)
    client.accepted(SET_CONFIG, struct.pack("<IIII", 12, 4, 0, 0xFFFFFFFF))
    client.counter("status")
    client.restart(*words, killed=True)
    client.connect()
    client.start_by_events(features=FEATURES | POISON)
    demand_reported(client, FIRST, 1)
