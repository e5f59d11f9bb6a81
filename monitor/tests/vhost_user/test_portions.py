"""Tests of requests of more numbers than a portion has, 256: of a page of numbers, as Windows'
driver sends, and of far more."""

import os
import signal
import struct

import pytest
from vhost_client import BUFFERS, DEFLATE, INFLATE, NEXT, PAGE, PAGES_OF_REGION, REGIONS, VRING_KICK
from vhost_demands import FIRST, demand_refused

PORTION = 256

# Bytes that the first region has for numbers.
ROOM = (PAGES_OF_REGION - 16) * PAGE


def post_pieces(client, number, numbers, *lengths):
    """Posts a request of these numbers, its bytes in pieces of these lengths, and a last one of
    what is left."""
    data, at = struct.pack(f"<{len(numbers)}I", *numbers), 0
    client.write(BUFFERS, data)
    for head, length in enumerate(lengths):
        client.describe(number, head, BUFFERS + at, length, NEXT, head + 1)
        at += length
    client.describe(number, len(lengths), BUFFERS + at, len(data) - at)
    client.publish(number, 0)
    client.kick(number)


def left_as_refused(client, words):
    """Demands that the backend ends with these words; returns what it left: pages that it
    discarded, and the used ring of inflates."""
    files, client.files = client.files, [os.dup(it) for it in client.files]
    demand_refused(client, words)
    client.files = files
    left = client.holes(), client.used(INFLATE)
    for it in files:
        os.close(it)
    return left


def test_a_page_of_numbers(start):
    client = start("--strict")
    client.post_pages(INFLATE, [FIRST + it % 60 for it in range(PAGE // 4)])
    assert (client.told(), client.used(INFLATE)) == (INFLATE, (1, [(0, 0)]))
    assert client.holes() == [FIRST + it for it in range(60)]
    client.post_pages(DEFLATE, [FIRST + it % 60 for it in range(PAGE // 4)], 5)
    assert (client.told(), client.used(DEFLATE)) == (DEFLATE, (1, [(5, 0)]))
    counters = client.backend.counters()
    assert [
        counters[it] for it in ("chains", "inflated", "deflated", "discarded", "interrupts")
    ] == [2, 1024, 1024, 1024, 2]


@pytest.mark.parametrize("lengths", ((), (1024,), (1023,), (1025,), (2, 1024), (1, 1, 0, 1021, 1)))
def test_a_number_more_than_a_portion(start, lengths):
    client = start("--strict")
    post_pieces(client, INFLATE, [FIRST + 1] * PORTION + [FIRST + 3], *lengths)
    assert (client.told(), client.used(INFLATE)) == (INFLATE, (1, [(0, 0)]))
    assert (client.holes(), client.counter("inflated")) == ([FIRST + 1, FIRST + 3], PORTION + 1)


def test_a_hundred_thousand_numbers(start):
    client = start("--strict")
    numbers = struct.pack("<I", FIRST + 9) * 100_000
    client.write(BUFFERS, numbers[:ROOM]), client.write(REGIONS[1][0], numbers[ROOM:])
    client.describe(DEFLATE, 0, BUFFERS, ROOM, NEXT, 1)
    client.describe(DEFLATE, 1, REGIONS[1][0], len(numbers) - ROOM)
    client.publish(DEFLATE, 0)
    client.kick(DEFLATE)
    assert (client.told(), client.used(DEFLATE)) == (DEFLATE, (1, [(0, 0)]))
    counters = client.backend.counters()
    assert [counters[it] for it in ("chains", "deflated", "interrupts")] == [1, 100_000, 1]


def test_other_queues_are_served_amid_a_long_request(start):
    client = start("--strict")
    client.write(BUFFERS, struct.pack("<I", FIRST + 9) * (ROOM // 4))
    client.describe(INFLATE, 0, BUFFERS, ROOM)
    client.describe(DEFLATE, 3, BUFFERS, 4)
    for it, head in ((INFLATE, 0), (DEFLATE, 3)):
        client.publish(it, head)
    client.backend.process.send_signal(signal.SIGSTOP)
    for it in INFLATE, DEFLATE:
        client.send(VRING_KICK, struct.pack("<II", it, 0), flags=1)
    client.backend.process.send_signal(signal.SIGCONT)
    assert [client.told(), client.told()] == [DEFLATE, INFLATE]
    assert (client.used(DEFLATE), client.used(INFLATE)) == ((1, [(3, 0)]), (1, [(0, 0)]))
    assert [client.counter(it) for it in ("inflated", "deflated")] == [ROOM // 4, 1]


def test_a_wrong_number_in_the_second_portion(serve):
    client = serve("--strict")
    client.start()
    post_pieces(client, INFLATE, [FIRST + 5] * PORTION + [FIRST + 6, FIRST + PAGES_OF_REGION], 1024)
    assert left_as_refused(client, "no such page (rule 9)") == ([FIRST + 5], (0, []))


@pytest.mark.parametrize("length", (0, 5, 1026, 4093))
def test_no_length_of_a_request(serve, length):
    client = serve("--strict")
    client.start()
    client.write(BUFFERS, struct.pack("<I", FIRST) * PAGE)
    client.describe(INFLATE, 0, BUFFERS, length)
    client.publish(INFLATE, 0)
    client.kick(INFLATE)
    assert left_as_refused(client, "a length that the queue doesn't take (rule 8)") == ([], (0, []))
