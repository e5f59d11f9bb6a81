"""Tests of rings in memory of several regions: their parts go over borders, and stay while the
memory is handed over again."""

import struct
import time

import pytest
import vhost_client
from vhost_client import (
    BUFFERS,
    DEFLATE,
    GET_VRING_BASE,
    INFLATE,
    PAGE,
    PAGES_OF_REGION,
    REGIONS,
    SET_MEM_TABLE,
    VRING_KICK,
)
from vhost_demands import MOST_CHAINS
from waiting import patience_from_now

GUEST, USER = REGIONS[0]

# Table, available ring and used ring begin on these pages, and this many bytes into them; each goes
# on on the next page. So the used ring's element of number 127 has its id on one page, and its
# length on the other one.
PARTS, BEGINS = (0, 4, 8), (PAGE - 128, PAGE - 128, PAGE - 1024)


def places(first):
    """Returns where the parts begin, from here on."""
    return (first + page * PAGE + it for page, it in zip(PARTS, BEGINS))


# Elsewhere in the guest or in the client, in pages.
AWAY = 1000


def hand_over(client, regions, answered=True):
    """Hands over regions of one file: their first pages, how many, and where they are in the guest
    and in the client."""
    table = struct.pack("<II", len(regions), 0)
    for first, count, guest, user in regions:
        table += struct.pack(
            "<QQQQ", GUEST + guest * PAGE, count * PAGE, USER + user * PAGE, first * PAGE
        )
    return client.send(
        SET_MEM_TABLE, table, len(regions) * client.files[:1], flags=9 if answered else 1
    )


def around(page, *instead):
    """Returns the regions before and after a page, and others in its place."""
    sides = ((0, page, 0, 0), (page + 1, PAGES_OF_REGION - page - 1, page + 1, page + 1))
    return [*(it for it in sides if it[1]), *instead]


def place(client, number, size):
    """Gives a queue its place over borders of pages."""
    table, available, used = places(USER)
    client.accepted(vhost_client.SET_VRING_NUM, struct.pack("<II", number, size))
    client.accepted(vhost_client.SET_VRING_BASE, struct.pack("<II", number, 0))
    client.accepted(
        vhost_client.SET_VRING_ADDR, struct.pack("<IIQQQQ", number, 0, table, used, available, 0)
    )


@pytest.fixture
def mapped(serve_well):
    """A client whose rings' pages are clear, and whose device is negotiated."""
    client = serve_well()
    client.negotiate()
    client.write(GUEST, bytes(PAGES_OF_REGION * PAGE))
    return client


def demand_all_used(client, turn):
    """Makes 256 chains available, each of which names a page, and demands that all are used, in
    their order."""
    table, available, used = places(GUEST)
    pages, heads = [20 + it % 40 for it in range(MOST_CHAINS)], range(MOST_CHAINS - 1, -1, -1)
    client.write(BUFFERS, struct.pack(f"<{MOST_CHAINS}I", *(GUEST // PAGE + it for it in pages)))
    client.write(GUEST + 20 * PAGE, b"\xff" * 44 * PAGE)
    client.write(
        table,
        b"".join(struct.pack("<QIHH", BUFFERS + 4 * it, 4, 0, 0) for it in range(MOST_CHAINS)),
    )
    client.write(used, bytes(4) if turn == 0 else struct.pack("<HH", 0, turn * MOST_CHAINS))
    client.write(available, struct.pack(f"<HH{MOST_CHAINS}H", 1, (turn + 1) * MOST_CHAINS, *heads))
    client.send(VRING_KICK, struct.pack("<II", INFLATE, 0))
    end = patience_from_now()
    while client.counter("chains") < (turn + 1) * MOST_CHAINS:
        assert time.monotonic() < end, "a chain isn't served"
    wanted = struct.pack("<HH", 0, (turn + 1) * MOST_CHAINS) + b"".join(
        struct.pack("<II", it, 0) for it in heads
    )
    assert client.read(used, len(wanted)) == wanted
    held = [it for it in range(20, 64) if client.read(GUEST + it * PAGE, 1) != b"\0"]
    assert held == [60, 61, 62, 63]


@pytest.mark.parametrize("page", [it + 1 for it in PARTS])
def test_parts_over_a_border_of_regions(mapped, page):
    hand_over(mapped, around(page, (page, 1, page, AWAY + page)))
    place(mapped, INFLATE, MOST_CHAINS)
    mapped.enable(INFLATE)
    demand_all_used(mapped, 0)
    # While the ring runs, the memory is handed over once more, with its borders elsewhere.
    other = PARTS[1] + 2
    assert hand_over(mapped, around(other, (other, 1, other, AWAY + other))) == bytes(8)
    demand_all_used(mapped, 1)


# Other regions for a part of a ring: they begin at another address of the guest, or of the client;
# or the part continues in a hole.
MOVED = [(2, around(it, (it, 1, AWAY, it))) for it in PARTS]
ELSEWHERE = [(2, around(it, (it, 1, it, AWAY))) for it in PARTS]
SHORTER = [(MOST_CHAINS, around(it + 1)) for it in PARTS]


@pytest.mark.parametrize("size, regions", (*MOVED, *ELSEWHERE, *SHORTER))
def test_memory_without_a_part_of_a_ring_that_runs(serve, size, regions):
    client = serve()
    client.negotiate()
    client.write(GUEST, bytes(16 * PAGE))
    hand_over(client, [(0, PAGES_OF_REGION, 0, 0)])
    place(client, DEFLATE, size)
    assert client.enable(DEFLATE) == bytes(8)
    hand_over(client, regions, answered=False)
    assert client.receive() is None
    assert client.close() == (1, "refused: queue 1 isn't in the guest's memory any longer")


def test_a_ring_where_a_region_ends_and_another_one_begins(mapped):
    hand_over(
        mapped, [(0, 32, 0, 0), (32, 32, AWAY, 32)]
    )  # in the client they touch, in the guest they don't
    mapped.tell_place(INFLATE, shift=32 * PAGE)
    assert (mapped.enable(INFLATE), mapped.counter("status")) == (bytes(8), 15)


def test_what_is_left_of_a_queue_that_stops(serve_well):
    client = serve_well()
    client.start(size=MOST_CHAINS)
    client.describe_all(DEFLATE, MOST_CHAINS)
    client.socket.sendall(
        struct.pack("<IIIII", VRING_KICK, 1, 8, DEFLATE, 0)
        + struct.pack("<IIIII", GET_VRING_BASE, 1, 8, DEFLATE, 0)
    )
    base = struct.unpack("<II", client.receive()[1])[1]
    assert 0 < base < MOST_CHAINS, base
    assert (client.counter("chains"), client.counter("status")) == (base, 15)


def test_an_index_ahead_by_a_whole_queue(serve_well):
    client = serve_well()
    client.negotiate()
    client.hand_over_memory()
    client.place(DEFLATE, base=8)
    client.describe_all(DEFLATE, 8)
    assert (client.enable(DEFLATE), client.counter("chains")) == (bytes(8), 8)
