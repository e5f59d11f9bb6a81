"""Tests of rings of each size that a client may offer, from 1 to 1,024 entries, and of chains in
the largest one."""

import struct
import time

import pytest
from vhost_client import (
    BUFFERS,
    INFLATE,
    NEXT,
    PAGE,
    REGIONS,
    SET_VRING_ADDR,
    SET_VRING_BASE,
    SET_VRING_NUM,
    VRING_KICK,
)
from vhost_demands import demand_refused
from waiting import patience_from_now

GUEST, USER = REGIONS[0]

# Where the parts of a ring are, of which the largest takes four pages, one and three.
TABLE, AVAILABLE, USED = (GUEST + it * PAGE for it in (0, 4, 5))
RINGS = 8 * PAGE

# Where a queue resumes: two turns of the largest ring go past its last entry, and past the index
# 65,535.
BEGIN = 65000

MOST_PIECES = 256


@pytest.fixture
def with_ring(serve):
    """Returns a client whose queue of inflates has a ring of this size, of which all that was taken
    was used."""

    def make(size):
        client = serve()
        client.negotiate()
        client.hand_over_memory()
        client.write(GUEST, bytes(RINGS))
        client.write(AVAILABLE, struct.pack("<HH", 1, BEGIN)), client.write(
            USED, struct.pack("<HH", 0, BEGIN)
        )
        client.accepted(SET_VRING_NUM, struct.pack("<II", INFLATE, size))
        client.accepted(SET_VRING_BASE, struct.pack("<II", INFLATE, BEGIN))
        client.accepted(
            SET_VRING_ADDR,
            struct.pack(
                "<IIQQQQ", INFLATE, 0, *(USER + it - GUEST for it in (TABLE, USED, AVAILABLE)), 0
            ),
        )
        assert client.enable(INFLATE) == bytes(8), client.why()
        return client

    return make


def describe(client, descriptors):
    """Writes descriptors by their numbers: the length of a buffer, its flags, and the next one's
    number."""
    for number, (length, flags, follows) in descriptors.items():
        client.write(TABLE + 16 * number, struct.pack("<QIHH", BUFFERS, length, flags, follows))


def chain(first, count):
    """Returns a chain of descriptors one after the other, which name a page by their first
    buffer."""
    last = first + count - 1
    return {it: (4 * (it == first), NEXT * (it < last), it + 1) for it in range(first, last + 1)}


def publish(client, size, entries, first):
    """Makes chains available from an index on, by their heads, and kicks."""
    for place, head in enumerate(entries, first):
        client.write(AVAILABLE + 4 + 2 * (place % size), struct.pack("<H", head))
    client.write(AVAILABLE + 2, struct.pack("<H", first + len(entries) & 0xFFFF))
    client.send(VRING_KICK, struct.pack("<II", INFLATE, 0))


def used_since(client, size, count, first):
    """Returns the elements that were used from an index on, once there are `count`."""
    end, wanted = patience_from_now(), struct.pack("<H", first + count & 0xFFFF)
    while client.read(USED + 2, 2) != wanted:
        assert time.monotonic() < end, f"not all chains are used: {client.why()}"
    return [
        struct.unpack("<II", client.read(USED + 4 + 8 * (it % size), 8))
        for it in range(first, first + count)
    ]


@pytest.mark.parametrize("size", (1, 2, 512, 1024))
def test_a_ring_is_served_whole(with_ring, size):
    client, heads = with_ring(size), range(size - 1, -1, -1)
    for number in range(size):
        client.write(TABLE + 16 * number, struct.pack("<QIHH", BUFFERS + 4 * number, 4, 0, 0))
    for turn in range(2):
        client.write(GUEST + 20 * PAGE, b"\xff" * 44 * PAGE)
        client.write(
            BUFFERS, struct.pack(f"<{size}I", *(GUEST // PAGE + 20 + it % 40 for it in range(size)))
        )
        publish(client, size, heads, BEGIN + turn * size)
        assert used_since(client, size, size, BEGIN + turn * size) == [(it, 0) for it in heads]
        held = [it for it in range(20, 64) if client.read(GUEST + it * PAGE, 1) != b"\0"]
        assert held == list(range(20 + min(size, 40), 64))
    assert (client.counter("chains"), client.close()) == (2 * size, (0, ""))


def test_the_longest_chain(with_ring):
    client, first = with_ring(1024), 1024 - MOST_PIECES
    client.write(BUFFERS, struct.pack("<I", GUEST // PAGE + 20))
    describe(client, chain(first, MOST_PIECES))
    publish(client, 1024, [first], BEGIN)
    assert used_since(client, 1024, 1, BEGIN) == [(first, 0)]
    assert (client.read(GUEST + 20 * PAGE, 1), client.close()) == (b"\0", (0, ""))


# Rules by the size of a ring: the number, what is said of it, the size, the heads and the
# descriptors.
RULES = (
    (1, "the head is no descriptor of the queue", 512, [1000], {}),
    (1, "the head is no descriptor of the queue", 1024, [1024], {}),
    (2, "a next field names no descriptor of the queue", 512, [0], {0: (4, NEXT, 1000)}),
    (3, "the chain is longer than the queue", 1, [0], {0: (4, NEXT, 0)}),
    (3, "the chain is longer than the queue", 1024, [0], chain(0, MOST_PIECES + 1)),
    (3, "the chain is longer than the queue", 1024, [767], chain(767, MOST_PIECES + 1)),
    (7, "the available index has jumped", 1024, 1025 * [0], {}),
)


@pytest.mark.parametrize("rule, words, size, heads, descriptors", RULES)
def test_rules_of_a_size(with_ring, rule, words, size, heads, descriptors):
    client = with_ring(size)
    client.write(BUFFERS, struct.pack("<I", GUEST // PAGE + 20))
    describe(client, descriptors)
    publish(client, size, heads, BEGIN)
    demand_refused(client, f"the guest's bytes break a rule: {words} (rule {rule})")


@pytest.mark.parametrize(
    "words, size",
    (
        ("VB_MISPLACED", 3),
        ("VB_MISPLACED", 768),
        ("has 1025 entries", 1025),
        ("has 2048 entries", 2048),
    ),
)
def test_no_size_of_a_ring(serve, words, size):
    client = serve()
    client.negotiate()
    client.hand_over_memory()
    client.place(INFLATE, size)
    assert client.enable(INFLATE) != bytes(8)
    demand_refused(client, words)
