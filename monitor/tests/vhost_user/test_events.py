"""Tests of what a client of good will gets from a backend that it kicks, and that calls it, by
events, as QEMU: its rings, its memory and its answers; those of a device's life are in
test_lives.py."""

import os
import struct
import time

import linux_guest
import vhost_client
from vhost_client import (
    ADD_MEM_REG,
    BUFFERS,
    DEFLATE,
    FEATURES,
    GET_CONFIG,
    GET_MAX_MEM_SLOTS,
    GET_STATUS,
    INFLATE,
    KINDLESS,
    NO_FILE,
    PAGE,
    PAGES_OF_REGION,
    MIGRATION,
    QEMU_PROTOCOL,
    REGIONS,
    REM_MEM_REG,
    REPLY_ACK,
    SET_CONFIG,
    SET_FEATURES,
    SET_STATUS,
    SET_VRING_ENABLE,
    SET_VRING_KICK,
    STATISTICS,
    STATUS,
)
from vhost_demands import FIRST, MOMENT, demand_served, demand_unserved, post_statistics, word
from waiting import goes_on_sleeping


def test_inflate_and_deflate(start_by_events):
    client = start_by_events("--strict", "--events")
    demand_served(client, INFLATE, [FIRST + 7, FIRST + 8, FIRST + 20], 3)
    assert client.used(INFLATE) == (1, [(3, 0)])
    assert client.holes() == [FIRST + it for it in (7, 8, 20)]
    demand_served(client, DEFLATE, [FIRST + 8], 7)
    counters = client.backend.counters()
    assert [counters[it] for it in ("inflated", "deflated", "interrupts", "kicks")] == [3, 1, 2, 2]
    assert [counters[it] for it in ("chains", "pages", "discarded")] == [2, 4, 3]


def test_no_call_is_wanted(start_by_events):
    client = start_by_events()
    client.write(client.table(INFLATE) + PAGE, struct.pack("<H", 1))
    client.post_pages(INFLATE, [FIRST])
    assert client.called(INFLATE, MOMENT) == 0
    assert client.used(INFLATE) == (1, [(0, 0)])


def test_messages_are_not_offered(serve_well):
    client = serve_well("--events")
    assert client.send(vhost_client.GET_PROTOCOL_FEATURES) == word(QEMU_PROTOCOL | MIGRATION)


def test_a_ring_goes_on_where_it_was(start_by_events):
    client = start_by_events()
    for page in range(3):
        demand_served(client, INFLATE, [FIRST + page])
    assert client.stop_ring(INFLATE) == 3
    assert client.stop_ring(DEFLATE) == 0
    assert client.counter("status") == 15
    client.tell_place(INFLATE, base=3)
    client.give_events(INFLATE)
    client.called(INFLATE)  # where it resumes, it calls once
    demand_served(client, INFLATE, [FIRST + 9])
    assert client.used(INFLATE)[0] == 4
    assert client.holes() == [FIRST + it for it in (0, 1, 2, 9)]


def test_a_ring_that_goes_on_calls_for_the_request_that_was_served_last(start_by_events):
    client = start_by_events()
    demand_served(client, INFLATE, [FIRST])
    assert client.stop_ring(INFLATE) == 1
    client.tell_place(INFLATE, base=1)
    client.give_events(INFLATE)
    assert client.called(INFLATE) == 1


def test_a_ring_goes_on_at_an_index_of_two_bytes(serve_well):
    client = serve_well()
    client.negotiate(protocol=QEMU_PROTOCOL)
    client.add_memory()
    client.clear(INFLATE)
    for part in (1, 2):
        client.write(client.table(INFLATE) + part * PAGE + 2, struct.pack("<H", 0x1FFF))
    client.available[INFLATE] = 0x1FFF
    client.go_on([0x1FFF, 0, 0, 0])
    client.called(INFLATE)
    client.post_pages(INFLATE, [FIRST])
    assert (client.called(INFLATE), client.stop_ring(INFLATE), client.holes()) == (
        1,
        0x2000,
        [FIRST],
    )


def test_regions_of_one_file(serve_well):
    client = serve_well()
    os.close(client.files[1])
    client.files[1] = os.dup(client.files[0])
    client.negotiate(protocol=QEMU_PROTOCOL)
    client.add_memory()
    assert client.counter("held_kib") == 4 * PAGES_OF_REGION


def test_what_is_held_of_a_file_is_counted_once_whichever_regions_stay(serve_well):
    """The last region has the place of one that is taken away, with its file."""
    client = serve_well()
    client.negotiate(protocol=QEMU_PROTOCOL)
    half, (guest, user) = PAGES_OF_REGION // 2 * PAGE, REGIONS[1]
    parts = [struct.pack("<5Q", 0, guest + it, half, user + it, it) for it in (0, half)]
    for body, file in ((client.region_body(0), 0), *((it, 1) for it in parts)):
        client.accepted(ADD_MEM_REG, body, [client.files[file]])
    assert client.counter("held_kib") == 2 * 4 * PAGES_OF_REGION
    client.accepted(REM_MEM_REG, client.region_body(0))
    assert client.counter("held_kib") == 4 * PAGES_OF_REGION


def test_a_ring_that_was_stopped_is_not_served(start_by_events):
    client = start_by_events()
    demand_served(client, INFLATE, [FIRST])
    client.stop_ring(INFLATE)
    client.post_pages(INFLATE, [FIRST + 1])
    time.sleep(MOMENT)
    assert (client.counter("inflated"), client.used(INFLATE)[0]) == (1, 1)
    demand_unserved(client, INFLATE)
    demand_served(client, DEFLATE, [FIRST])
    client.give_events(INFLATE)
    assert client.called(INFLATE) > 0
    assert client.used(INFLATE)[0] == 2


def test_a_ring_that_is_disabled_is_not_served(start_by_events):
    client = start_by_events()
    demand_served(client, INFLATE, [FIRST])
    client.accepted(SET_VRING_ENABLE, struct.pack("<II", INFLATE, 0))
    client.post_pages(INFLATE, [FIRST + 1])
    demand_unserved(client, INFLATE)
    client.accepted(SET_VRING_ENABLE, struct.pack("<II", INFLATE, 1))
    assert client.called(INFLATE) > 0
    assert client.used(INFLATE)[0] == 2


def test_a_buffer_of_statistics_is_given_up_and_taken_again(start_by_events):
    client = start_by_events()
    post_statistics(client, 11)
    assert client.called(STATISTICS, MOMENT) == 0  # the buffer is held
    assert client.counter("statistics") == 1
    assert (client.stop_ring(STATISTICS), client.used(STATISTICS)[0]) == (0, 0)
    assert client.backend.ask("ask") == "nothing"
    client.give_events(STATISTICS)
    assert client.backend.statistics() == (2, {"free_memory": 11})
    assert client.backend.ask("ask") == "asked"
    assert (client.called(STATISTICS), client.used(STATISTICS)) == (1, (1, [(0, 0)]))


def test_a_queue_without_a_kind_is_set_up_and_never_served(serve_well):
    client = serve_well()
    client.negotiate(protocol=QEMU_PROTOCOL)
    client.add_memory()
    client.place(KINDLESS, base=5)
    client.give_events(KINDLESS)
    client.accepted(SET_VRING_ENABLE, struct.pack("<II", KINDLESS, 1))
    client.post_pages(KINDLESS, [FIRST])
    demand_unserved(client, KINDLESS)
    assert (client.used(KINDLESS)[0], client.counter("status")) == (0, 11)
    client.go_on()
    demand_served(client, INFLATE, [FIRST + 1])
    demand_unserved(client, KINDLESS)
    assert (client.stop_ring(KINDLESS), client.stop_ring(KINDLESS)) == (5, 5)
    client.give_events(KINDLESS)
    demand_unserved(client, KINDLESS)
    client.accepted(
        SET_VRING_KICK, word(KINDLESS | NO_FILE)
    )  # one that is to be looked at without a kick
    assert client.is_at_rest(), "the backend looks at a queue that it never serves"
    assert (client.holes(), client.counter("chains"), client.counter("status")) == (
        [FIRST + 1],
        1,
        15,
    )


def test_a_kick_before_the_ring_runs(serve_well):
    client = serve_well()
    client.negotiate(protocol=QEMU_PROTOCOL)
    client.add_memory()
    client.place(INFLATE)
    client.give_events(INFLATE)
    client.post_pages(INFLATE, [FIRST])
    demand_unserved(client, INFLATE)
    assert (client.used(INFLATE)[0], client.counter("status")) == (0, 11)
    client.enable(INFLATE)
    assert (client.called(INFLATE), client.used(INFLATE)[0], client.counter("status")) == (1, 1, 15)


def test_rings_that_begin_enabled(serve_well):
    client = serve_well()
    client.begin(QEMU_PROTOCOL & ~STATUS)
    client.accepted(SET_FEATURES, word(FEATURES))
    client.add_memory()
    client.place(INFLATE)
    client.give_events(INFLATE)
    demand_served(client, INFLATE, [FIRST])


def test_slots(serve_well):
    client = serve_well()
    client.negotiate(protocol=QEMU_PROTOCOL)
    assert client.send(GET_MAX_MEM_SLOTS) == word(32)
    before = client.open_files()
    for _ in range(3):
        client.add_memory()
        assert client.counter("end") == REGIONS[1][0] // PAGE + PAGES_OF_REGION
        for region in (0, 1):
            client.accepted(REM_MEM_REG, client.region_body(region))
    assert client.open_files() == before
    client.add_memory()
    client.go_on()
    demand_served(client, INFLATE, [FIRST])


def test_events_that_take_the_place_of_others_of_a_ring_that_runs(start_by_events):
    """Neither a call nor a kick of those before is lost: the new one calls, and what is available
    is served."""
    client = start_by_events()
    client.describe(INFLATE, 0, BUFFERS, 4)
    client.publish(INFLATE, 0)
    client.give_events(INFLATE)
    assert (client.called(INFLATE), client.used(INFLATE)[0]) == (2, 1)


def test_a_region_that_is_taken_away(start_by_events):
    client = start_by_events()
    before = client.open_files()
    client.accepted(REM_MEM_REG, client.region_body(1), [client.files[1]])
    assert client.open_files() == before - 1
    demand_served(client, INFLATE, [FIRST])
    assert (client.holes(), client.counter("skipped")) == ([], 1)
    client.accepted(vhost_client.ADD_MEM_REG, client.region_body(1), [client.files[1]])
    demand_served(client, INFLATE, [FIRST])
    assert client.holes() == [FIRST]


def test_a_change_is_told(start_by_events):
    client = start_by_events()
    assert client.backend.ask("target 258") == "ok"
    assert client.told() is None
    body = struct.pack("<III", 0, 8, 0)
    assert client.send(GET_CONFIG, body + bytes(8)) == body + struct.pack("<II", 258, 0)


def test_an_answer_that_is_waited_for(start_by_events):
    client = start_by_events()
    assert client.send(SET_CONFIG, struct.pack("<IIII", 4, 4, 0, 9)) == bytes(8)
    assert client.send(SET_CONFIG, struct.pack("<IIII", 0, 4, 0, 9)) == word(1)


def test_no_answer_without_the_feature(serve_well):
    client = serve_well()
    client.begin(QEMU_PROTOCOL & ~REPLY_ACK)
    client.send(SET_STATUS, word(1), flags=1)
    client.socket.sendall(struct.pack("<III", SET_STATUS, 9, 8) + word(3))
    assert (client.send(GET_STATUS, flags=1) or client.receive()) == (GET_STATUS, word(3))


def test_a_ring_without_a_kick(start_by_events):
    client = start_by_events()
    client.send(SET_VRING_KICK, word(INFLATE | NO_FILE))
    client.kicks[INFLATE], kick = None, client.kicks[INFLATE]
    client.write(BUFFERS, struct.pack("<I", FIRST))
    client.describe(INFLATE, 0, BUFFERS, 4)
    client.publish(INFLATE, 0)
    assert (client.called(INFLATE), client.used(INFLATE)[0]) == (1, 1)
    goes_on_sleeping(client.backend.process.pid)
    client.accepted(SET_VRING_ENABLE, struct.pack("<II", INFLATE, 0))
    client.publish(INFLATE, 0)
    time.sleep(MOMENT)
    assert (client.counter("status"), client.used(INFLATE)[0]) == (15, 1)
    os.close(kick)


def test_a_ring_with_a_kick_waits_for_it(start_by_events):
    client = start_by_events()
    client.describe(INFLATE, 0, BUFFERS, 4)
    client.publish(INFLATE, 0)
    assert [client.counter("chains") for _ in range(2)] == [0, 0]  # in two turns
    client.kick(INFLATE)
    assert (client.called(INFLATE), client.used(INFLATE)[0]) == (1, 1)


def test_a_ring_that_was_looked_at_waits_for_messages_again(start):
    client = start()
    client.accepted(SET_VRING_KICK, word(INFLATE | NO_FILE))
    client.stop_ring(INFLATE)
    client.tell_place(INFLATE)
    assert client.enable(INFLATE) == bytes(8)
    client.describe(INFLATE, 0, BUFFERS, 4)
    client.publish(INFLATE, 0)
    assert [client.counter("chains") for _ in range(2)] == [0, 0]  # in two turns
    client.kick(INFLATE)
    assert (client.told(), client.used(INFLATE)[0]) == (INFLATE, 1)


def test_lines_before_a_client(serve_well, program):
    client = serve_well()
    other = linux_guest.Backend(program, client.folder.name, [client.file("other")])
    assert (other.ask("target 5"), other.counters()["target"]) == ("ok", 5)
    other.process.stdout.close()
    assert other.close() == 2
    os.truncate(other.log, 0)
