"""Tests of a device's life with a client that kicks and is called by events: its status, what stays
and what a reset forgets."""

import os
import struct

import pytest
import vhost_client
from vhost_client import (
    DEFLATE,
    FEATURES,
    GET_STATUS,
    INFLATE,
    PAGE,
    QEMU_PROTOCOL,
    QUEUES,
    REGIONS,
    RESET_DEVICE,
    SET_CONFIG,
    SET_FEATURES,
    SET_MEM_TABLE,
    SET_OWNER,
    SET_STATUS,
    SET_VRING_ADDR,
    SET_VRING_ENABLE,
    SET_VRING_ERR,
    SET_VRING_KICK,
    SET_VRING_NUM,
    SIZE,
)
from vhost_demands import FIRST, demand_served, demand_unserved, word
from waiting import eventually


def test_status(serve_well):
    client = serve_well()
    client.negotiate(protocol=QEMU_PROTOCOL)
    client.add_memory()
    answers = []
    for status in (8, 9, 1, 12, 11, 15, 0x100, 0xFF, 0, 4, 7, 12):
        answers.append(
            (client.send(SET_STATUS, word(status)) == bytes(8), client.send(GET_STATUS)[0])
        )
    accepted = [
        (True, 8),
        (True, 9),
        (False, 9),
        (False, 9),
        (True, 11),
        (True, 15),
        (False, 15),
        (True, 0xFF),
        (True, 0),
        *((False, 0), (False, 0), (True, 12)),
    ]
    assert answers == accepted


@pytest.mark.parametrize(
    "message, body", ((vhost_client.RESET_OWNER, b""), (SET_STATUS, word(0)), (RESET_DEVICE, b""))
)
def test_what_stops_all_rings(start_by_events, message, body):
    client = start_by_events()
    demand_served(client, INFLATE, [FIRST])
    client.accepted(message, body)
    assert client.counter("status") == 0
    client.post_pages(INFLATE, [FIRST + 1])
    demand_unserved(client, INFLATE)


def test_features_before_the_status_that_stands_on_them(serve_well):
    client = serve_well()
    client.begin(QEMU_PROTOCOL)
    assert client.send(SET_STATUS, word(11)) != bytes(8)
    assert client.send(GET_STATUS) == bytes(8)


def test_a_driver_that_has_failed(start_by_events):
    client = start_by_events()
    client.accepted(SET_STATUS, word(15 | 128))
    client.post_pages(INFLATE, [FIRST])
    demand_unserved(client, INFLATE)
    assert (client.used(INFLATE)[0], client.counter("status")) == (0, 0)


def test_a_device_goes_on_where_it_was(start_by_events):
    client = start_by_events()
    demand_served(client, INFLATE, [FIRST])
    demand_served(client, DEFLATE, [FIRST])
    client.accepted(SET_CONFIG, struct.pack("<IIII", 4, 4, 0, 77))
    bases = [client.stop_ring(number) for number in range(4)]
    assert bases == [1, 1, 0, 0]
    client.accepted(SET_STATUS, word(0))
    assert client.counter("status") == 0
    client.accepted(SET_FEATURES, word(FEATURES | vhost_client.HAS_PROTOCOL))
    client.go_on(bases, order=(2, 3, 1, 0))  # one that begins at 0 before the one that continues
    assert (client.counter("status"), client.counter("actual")) == (15, 77)
    client.called(INFLATE)
    demand_served(client, INFLATE, [FIRST + 1])
    # One ring stops and starts beside others: `actual` stays what it is.
    client.accepted(SET_CONFIG, struct.pack("<IIII", 4, 4, 0, 5))
    for on in (0, 1):
        client.accepted(SET_VRING_ENABLE, struct.pack("<II", INFLATE, on))
    assert client.counter("actual") == 5


def test_calls_stay_over_a_status_of_0(start_by_events):
    client = start_by_events()
    demand_served(client, INFLATE, [FIRST])
    client.accepted(SET_STATUS, word(0))
    client.accepted(SET_FEATURES, word(FEATURES | vhost_client.HAS_PROTOCOL))
    client.tell_place(INFLATE, base=1)
    client.accepted(SET_VRING_KICK, word(INFLATE), [client.kicks[INFLATE]])
    client.accepted(SET_VRING_ENABLE, struct.pack("<II", INFLATE, 1))
    assert client.called(INFLATE) == 1  # where it resumes, it calls once
    demand_served(client, INFLATE, [FIRST + 1])


def test_a_ring_runs_once_all_is_told(serve_well):
    place = struct.pack("<IIQQQQ", INFLATE, 0, *(REGIONS[0][1] + it * PAGE for it in (0, 2, 1)), 0)
    kick = os.eventfd(0, os.EFD_NONBLOCK)
    messages = (
        (SET_VRING_NUM, struct.pack("<II", INFLATE, SIZE)),
        (SET_VRING_ADDR, place),
        (SET_VRING_KICK, word(INFLATE), [kick]),
        (SET_VRING_ENABLE, struct.pack("<II", INFLATE, 1)),
    )
    for late in messages:
        client = serve_well()
        client.negotiate(protocol=QEMU_PROTOCOL)
        client.add_memory()
        client.clear(INFLATE)
        client.kicks[INFLATE] = os.dup(kick)
        for it in messages:
            if it is not late:
                client.accepted(*it)
        client.post_pages(INFLATE, [FIRST])
        assert [client.counter(it) for it in ("kicks", "chains", "status")] == [0, 0, 11]
        client.accepted(*late)
        assert (client.counter("status"), client.used(INFLATE)) == (15, (1, [(0, 0)]))
    os.close(kick)


def test_a_status_of_0_before_the_indexes_are_asked_for(start_by_events):
    client = start_by_events()
    for page in range(3):
        demand_served(client, INFLATE, [FIRST + page])
    client.accepted(SET_STATUS, word(0))
    for number in range(4):
        client.accepted(SET_VRING_ENABLE, struct.pack("<II", number, 0))
    assert [client.stop_ring(number) for number in range(4)] == [3, 0, 0, 0]
    client.go_on([3, 0, 0, 0])
    client.called(INFLATE)
    demand_served(client, INFLATE, [FIRST + 9])


def test_a_new_driver_has_nothing_in_its_balloon(start_by_events):
    client = start_by_events()
    demand_served(client, INFLATE, [FIRST])
    client.accepted(SET_CONFIG, struct.pack("<IIII", 4, 4, 0, 77))
    client.accepted(SET_STATUS, word(0))
    client.accepted(SET_FEATURES, word(FEATURES | vhost_client.HAS_PROTOCOL))
    client.go_on()
    assert (client.counter("status"), client.counter("actual")) == (15, 0)
    demand_served(client, INFLATE, [FIRST])


def test_a_device_that_is_plugged_again(serve_well):
    client = serve_well()
    client.begin(QEMU_PROTOCOL)
    files, fault = client.open_files(), os.eventfd(0, os.EFD_NONBLOCK)
    for stops in (True, True, False):
        client.start_by_events()
        for number in range(QUEUES):
            client.accepted(SET_VRING_ERR, word(number), [fault])
        assert (client.counter("status"), client.counter("actual")) == (15, 0)
        demand_served(client, INFLATE, [FIRST, FIRST + 1])
        client.accepted(SET_CONFIG, struct.pack("<IIII", 4, 4, 0, 77))
        for number in range(4 * stops):  # as QEMU unplugs it, whose memory and events stay
            client.accepted(SET_VRING_ENABLE, struct.pack("<II", number, 0))
            client.stop_ring(number)
        client.begin(QEMU_PROTOCOL)
        assert (client.send(GET_STATUS), client.counter("status"), client.counter("actual")) == (
            bytes(8),
            0,
            0,
        )
        assert (client.open_files(), client.mappings()) == (files, 0)
        assert client.send(SET_STATUS, word(11)) != bytes(8)  # as no features are taken
    client.start_by_events()
    demand_served(client, INFLATE, [FIRST])
    assert (client.backend.ask("target 3"), client.told()) == ("ok", None)
    os.close(fault)


def test_a_session_without_protocol_features_ends_with_the_next(serve_well):
    """As one of a client that has some: nothing of its memory stays."""
    client = serve_well()
    begins = ((SET_OWNER, b""), (SET_FEATURES, word(FEATURES)))
    for _ in range(2):
        for request, body in begins:
            client.send(request, body, flags=1)
        eventually(lambda: (client.counter("status"), client.mappings()) == (11, 0))
        table = struct.pack("<IIQQQQ", 1, 0, REGIONS[0][0], PAGE, REGIONS[0][1], 0)
        client.send(SET_MEM_TABLE, table, client.files[:1], flags=1)
        eventually(lambda: client.mappings() == 1)


def test_a_state_s_file_is_whole_at_each_moment(serve_well):
    client = serve_well()
    state = client.file("state")
    client.restart("--state", state)
    assert (client.backend.ask("target 7"), client.counter("target")) == ("ok", 7)
    with open(state, "rb") as before:
        saved = before.read()
        assert (client.backend.ask("target 8"), client.counter("target")) == ("ok", 8)
        before.seek(0)
        assert (len(saved), before.read()) == (
            vhost_client.STATE_BYTES,
            saved,
        )  # an open file is the old one, whole
    with open(state, "rb") as after:
        assert after.read() != saved
    client.connect()


def test_a_reset_forgets_the_rings(start_by_events):
    client = start_by_events()
    client.accepted(SET_CONFIG, struct.pack("<IIII", 4, 4, 0, 77))
    client.accepted(RESET_DEVICE)
    assert (client.counter("status"), client.counter("actual")) == (0, 0)
    assert client.send(GET_STATUS) == bytes(8)
    assert client.send(SET_STATUS, word(11)) != bytes(8)
    client.accepted(SET_FEATURES, word(FEATURES | vhost_client.HAS_PROTOCOL))
    client.accepted(SET_STATUS, word(15))
    client.post_pages(INFLATE, [FIRST + 1])
    demand_unserved(client, INFLATE)
    assert (client.used(INFLATE)[0], client.stop_ring(INFLATE)) == (0, 0)
    client.go_on()
    demand_served(client, INFLATE, [FIRST + 2])
    # Nor does `actual` come back, of rings that had stopped before.
    client.accepted(SET_CONFIG, struct.pack("<IIII", 4, 4, 0, 77))
    client.accepted(SET_STATUS, word(0))
    client.accepted(RESET_DEVICE)
    client.accepted(SET_FEATURES, word(FEATURES | vhost_client.HAS_PROTOCOL))
    client.go_on([1, 0, 0, 0])
    assert (client.counter("status"), client.counter("actual")) == (15, 0)


def goes_on_after_a_kill(client, state, bases, actual):
    """Has another backend go on with a client's queues, and with its `actual`."""
    client.counter("status")
    client.restart("--state", state, killed=True)
    client.connect()
    client.negotiate(protocol=QEMU_PROTOCOL)
    client.add_memory()
    client.go_on(bases)
    assert (client.counter("status"), client.counter("actual")) == (15, actual)
    assert client.called(INFLATE) > 0


def test_a_backend_that_is_killed_goes_on(serve_well):
    client = serve_well()
    state = client.file("state")
    client.restart("--state", state)
    client.connect()
    client.start_by_events()
    demand_served(client, INFLATE, [FIRST])
    demand_served(client, INFLATE, [FIRST + 1])
    client.backend.ask("target 99")
    client.accepted(SET_CONFIG, struct.pack("<IIII", 4, 4, 0, 2))
    client.counter("target")
    client.post_pages(INFLATE, [FIRST + 2])
    client.called(INFLATE)
    client.restart("--state", state, killed=True)
    client.post_pages(INFLATE, [FIRST + 3])
    assert client.backend.counters()["target"] == 99
    client.connect()
    client.negotiate(protocol=QEMU_PROTOCOL)
    client.add_memory()
    client.go_on([client.used(number)[0] for number in range(4)])
    assert (client.counter("status"), client.counter("actual")) == (15, 2)
    assert client.called(INFLATE) > 0
    assert client.used(INFLATE)[0] == 4
    assert client.holes() == [FIRST + it for it in range(4)]
    demand_served(client, INFLATE, [FIRST + 4])
    # And again with another `actual`, and while no ring runs.
    client.accepted(SET_CONFIG, struct.pack("<IIII", 4, 4, 0, 3))
    goes_on_after_a_kill(client, state, [client.used(number)[0] for number in range(4)], 3)
    bases = [client.stop_ring(number) for number in range(4)]
    client.accepted(SET_STATUS, word(0))
    goes_on_after_a_kill(client, state, bases, 3)
    demand_served(client, INFLATE, [FIRST + 5])
