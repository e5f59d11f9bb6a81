"""Tests of what a client of good will gets from a backend to which it talks by messages alone, as
virtio_uml."""

import fcntl
import os
import re
import select
import struct
import time

import linux_kit
import pytest
from vhost_client import (
    DEFLATE,
    FEATURES,
    GET_CONFIG,
    GET_FEATURES,
    GET_PROTOCOL_FEATURES,
    GET_QUEUE_NUM,
    HAS_PROTOCOL,
    LOG_ALL,
    INFLATE,
    NEXT,
    NO_LINES,
    NO_NUMBERS,
    MIGRATION,
    OFFERED,
    PAGE,
    PAGES_OF_REGION,
    REGIONS,
    REPORT,
    SET_CONFIG,
    SET_FEATURES,
    SIZE,
    WRITE,
)
from vhost_demands import MOST_CHAINS, post_statistics
from waiting import PATIENCE

# A seal of a memory's file (memfd_create(2)).
FUTURE_WRITE = 0x10


def test_start(serve_well):
    client = serve_well()
    client.begin(OFFERED)
    assert client.send(GET_FEATURES) == struct.pack("<Q", FEATURES | HAS_PROTOCOL | LOG_ALL)
    assert client.send(GET_PROTOCOL_FEATURES) == struct.pack("<Q", OFFERED | MIGRATION)
    assert client.send(GET_QUEUE_NUM) == struct.pack("<Q", 5)
    client.start()
    assert client.counter("status") == 15
    assert client.counter("end") == REGIONS[1][0] // PAGE + PAGES_OF_REGION


def test_inflate_and_deflate(start):
    client = start("--strict")
    first = REGIONS[1][0] // PAGE
    assert client.post_pages(
        INFLATE, [first + 9, first + 8, first + 7, first + 20, first + 21], 3
    ) == bytes(8)
    assert client.told() == INFLATE
    assert client.used(INFLATE) == (1, [(3, 0)])
    assert client.holes() == [first + it for it in (7, 8, 9, 20, 21)]
    client.post_pages(DEFLATE, [first + 8, first + 9], 7)
    assert client.told() == DEFLATE
    assert client.used(DEFLATE) == (1, [(7, 0)])
    counters = client.backend.counters()
    assert [counters[it] for it in ("inflated", "deflated", "interrupts", "kicks")] == [5, 2, 2, 2]


def test_no_interrupt_is_wanted(start):
    client = start()
    client.write(client.table(INFLATE) + PAGE, struct.pack("<H", 1))
    client.post_pages(INFLATE, [REGIONS[0][0] // PAGE + 40])
    assert client.counter("interrupts") == 0
    assert client.used(INFLATE) == (1, [(0, 0)])


def test_pages_that_are_not_there(start):
    client = start()
    end, hole = REGIONS[1][0] // PAGE + PAGES_OF_REGION, REGIONS[0][0] // PAGE + PAGES_OF_REGION
    client.post_pages(INFLATE, [end - 1, end, 0xFFFFFFFF, hole - 1, hole, hole + 1])
    client.told()
    assert client.holes() == [hole - 1, end - 1]
    counters = client.backend.counters()
    assert [counters[it] for it in ("skipped", "in_holes", "kept")] == [2, 2, 0]


def test_keep(start):
    client = start("--keep")
    client.post_pages(INFLATE, [REGIONS[1][0] // PAGE])
    client.told()
    assert client.holes() == []
    counters = client.backend.counters()
    assert [counters[it] for it in ("discarded", "in_holes", "kept")] == [0, 0, 1]


def test_pages_that_the_machine_keeps(serve_well):
    client = serve_well()
    os.close(client.files[1])
    client.files[1] = os.memfd_create("sealed", os.MFD_CLOEXEC | os.MFD_ALLOW_SEALING)
    os.write(client.files[1], b"\xff" * PAGES_OF_REGION * PAGE)
    client.start()
    fcntl.fcntl(
        client.files[1], fcntl.F_ADD_SEALS, FUTURE_WRITE
    )  # mapped as it is, and no hole is made in it any more
    client.post_pages(INFLATE, [REGIONS[1][0] // PAGE + it for it in (0, 1)])
    assert (client.told(), client.used(INFLATE)) == (INFLATE, (1, [(0, 0)]))
    counters = client.backend.counters()
    assert [counters[it] for it in ("inflated", "discarded", "kept", "in_holes")] == [2, 0, 2, 0]
    assert (client.holes(), client.backend.why()) == (
        [],
        "2 pages can't be discarded: Operation not permitted",
    )
    os.truncate(client.backend.log, 0)


def test_report(start):
    client = start()
    client.describe(REPORT, 2, REGIONS[1][0], 8 * PAGE, NEXT | WRITE, 5)
    client.describe(REPORT, 5, REGIONS[1][0] + 16 * PAGE, 4 * PAGE, WRITE)
    client.publish(REPORT, 2)
    client.kick(REPORT)
    assert client.told() == REPORT
    first = REGIONS[1][0] // PAGE
    assert client.holes() == [first + it for it in (*range(8), *range(16, 20))]
    assert (client.counter("reports"), client.counter("reported")) == (1, 12)


def test_rings_in_the_second_region(serve_well):
    client = serve_well()
    client.region = 1
    client.start()
    page = REGIONS[1][0] // PAGE + 40
    client.post_pages(INFLATE, [page, page + 2])
    assert (client.told(), client.used(INFLATE)) == (INFLATE, (1, [(0, 0)]))
    assert client.holes() == [page, page + 2]


def test_regions_that_begin_within_their_files(serve_well):
    client = serve_well()
    client.offset = 8 * PAGE
    for it in client.files:
        os.pwrite(it, b"\xff" * client.offset, PAGES_OF_REGION * PAGE)
    client.start()
    first = REGIONS[1][0] // PAGE
    client.post_pages(INFLATE, [first, first + 9, first + PAGES_OF_REGION - 1])
    assert (client.told(), client.used(INFLATE)) == (INFLATE, (1, [(0, 0)]))
    assert client.holes() == [first, first + 9, first + PAGES_OF_REGION - 1]
    assert client.counter("held_kib") == 4 * (2 * (PAGES_OF_REGION + 8) - 3)


def test_an_old_table_s_files_are_closed(start):
    client = start()
    before = client.open_files(), client.mappings()
    for _ in range(3):
        client.hand_over_memory()
    assert (client.open_files(), client.mappings()) == before


def test_a_target_is_not_told_before_the_driver_is_ready(serve_well):
    client = serve_well()
    client.negotiate()
    assert client.backend.ask("target 7") == "ok"
    client.start()
    assert client.backend.counters()["told"] == 0
    assert select.select([client.own], [], [], 0)[0] == []
    assert client.told() is None


def test_what_is_left_after_a_long_service_is_served(serve_well):
    client = serve_well()
    client.start(size=MOST_CHAINS)
    assert client.are_served([DEFLATE], MOST_CHAINS), "a notice left chains, and no other one came"


def test_what_is_left_as_the_driver_gets_ready_is_served(serve_well):
    client = serve_well()
    client.negotiate()
    client.hand_over_memory()
    client.place(DEFLATE, MOST_CHAINS)
    client.describe_all(DEFLATE, MOST_CHAINS)
    client.enable(DEFLATE)
    assert client.are_used(
        [DEFLATE], MOST_CHAINS
    ), "the first look left chains, and no other one came"


def test_what_is_left_of_two_queues_is_served(serve_well):
    client = serve_well()
    client.start(size=MOST_CHAINS)
    assert client.are_served(
        [INFLATE, DEFLATE], MOST_CHAINS
    ), "one queue's chains are left after another's"
    assert client.is_at_rest(), "nothing is left, and the backend looks again and again"


def test_what_is_published_meanwhile_waits_for_its_kick(start):
    client = start()
    for _ in range(20):
        served = client.served_by_a_kick(DEFLATE, 0.05)
        assert 0 < served <= SIZE, f"a kick served {served} chains of a queue of {SIZE}"


def test_statistics_before_the_driver_is_ready(serve_well):
    client = serve_well()
    client.negotiate()
    client.hand_over_memory()
    for number in range(4):
        client.place(number)
    post_statistics(client, 7)
    for number in range(4):
        client.enable(number)
    assert client.backend.statistics() == (1, {"free_memory": 7})


def test_queues_without_gaps(serve_well):
    client = serve_well()
    client.start(0x100000021)  # the queue after the last one doesn't run
    client.describe(2, 0, REGIONS[1][0], PAGE, WRITE)
    client.publish(2, 0)
    client.kick(2)
    assert (client.told(), client.counter("reported")) == (2, 1)


@pytest.mark.parametrize(
    "features, numbers",
    ((FEATURES, [4]), (0x100000007, [3, 4]), (0x100000021, [3, 4]), (0x100000001, [2, 3, 4])),
)
def test_a_queue_without_a_kind_is_never_served(serve_well, features, numbers):
    client = serve_well()
    client.start(features, queues=5)
    for number in numbers:
        assert client.post_pages(number, [REGIONS[1][0] // PAGE + number]) == bytes(8)
    client.post_pages(INFLATE, [REGIONS[1][0] // PAGE])
    assert client.told() == INFLATE
    assert [client.used(it) for it in numbers] == [(0, [])] * len(numbers)
    assert (client.holes(), client.counter("chains")) == ([REGIONS[1][0] // PAGE], 1)
    assert [client.enable(it, 0) for it in numbers] == [bytes(8)] * len(numbers)
    assert client.counter("status") == 15


def test_configuration(start):
    client = start()
    assert client.backend.ask("target 258") == "ok"
    assert client.told() is None
    body = struct.pack("<III", 0, 4, 0) + bytes(4)
    assert (client.send(GET_CONFIG, body, flags=1) or client.receive()[1]) == body[
        :12
    ] + struct.pack("<I", 258)
    client.accepted(SET_CONFIG, struct.pack("<IIII", 4, 4, 0, 258))
    assert client.counter("actual") == 258
    assert client.send(SET_CONFIG, struct.pack("<IIII", 0, 4, 0, 9)) != bytes(8)
    client.accepted(
        SET_CONFIG, struct.pack("<7I", 0, 16, 0, 9, 77, 9, 9)
    )  # all of it, as QEMU 11.1.3 does for each field
    assert (client.counter("target"), client.counter("actual")) == (258, 77)


def test_a_target_is_told_again(start):
    client = start()
    client.backend.ask("target 5")
    for _ in range(3):
        assert client.told(5) is None


def test_a_target_is_not_told_again_while_the_balloon_moves(start):
    client = start()
    client.backend.ask("target 1000")
    assert client.told() is None
    begin = last = time.monotonic()
    longest, actual = 0, 0
    while last < begin + 2.5:
        actual += 1
        client.accepted(SET_CONFIG, struct.pack("<IIII", 4, 4, 0, actual))
        time.sleep(0.02)
        longest, last = max(longest, time.monotonic() - last), time.monotonic()
    if longest < 0.5:  # else the machine has held the client up, and the balloon has stayed
        assert client.counter("told") == 1
    assert client.told(5) is None


def test_features_twice_and_lives(serve_well):
    client = serve_well()
    client.negotiate(0x100000021)
    client.start()
    assert client.counter("status") == 15
    client.accepted(SET_FEATURES, struct.pack("<Q", FEATURES | HAS_PROTOCOL | LOG_ALL))
    client.accepted(SET_CONFIG, struct.pack("<IIII", 4, 4, 0, 3))
    assert (client.counter("status"), client.counter("actual")) == (15, 3)
    for number in (3, 2, 1, 0):
        assert client.enable(number, 0) == bytes(8)
    assert (client.counter("status"), client.counter("actual")) == (0, 0)
    client.start()
    assert (client.counter("status"), client.counter("actual")) == (15, 0)
    client.post_pages(INFLATE, [REGIONS[1][0] // PAGE])
    assert client.told() == INFLATE


def test_each_counter_is_in_the_table(start):
    client = start()
    with open(os.path.join(linux_kit.ROOT, "docs", "LINUX.md"), encoding="utf-8") as page:
        table = page.read().split("| Counter |", 1)[1].split("\n\n", 1)[0]
    named = re.findall(r"`(\w+)`", "".join(it.split("|")[1] for it in table.splitlines()[2:]))
    assert named == list(client.backend.counters())


def test_lines_that_are_none(start):
    client = start()
    numbers = [f"target {it}" for it in (*NO_NUMBERS, "4294967296")]
    for line in ("", "target", *numbers, "snapshot", "audit", "x" * 60, "x" * 300):
        assert client.backend.ask(line).startswith("error: "), line
    for begin in NO_LINES:
        assert client.backend.ask(f"{begin}target 7").startswith("error: "), begin
    assert client.backend.ask("target 7\0").startswith("error: ")
    assert (client.counter("target"), client.backend.ask("target 4294967295")) == (0, "ok")


def test_lines_in_parts(start):
    client = start()
    said = client.backend.in_parts(b"coun", b"ters\ntarget 9\nstatistics\n")
    assert [it.split()[0] for it in said] == ["target", "ok", "statistics"]


def test_quit(serve_ready):
    client = serve_ready()
    client.backend.process.stdin.write(b"quit\n")
    client.backend.process.stdin.flush()
    assert client.backend.process.wait(PATIENCE) == 0
    assert client.close() == (0, "")
