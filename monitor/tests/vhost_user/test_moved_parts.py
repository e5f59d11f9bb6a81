"""Tests of a device that moves whose guest's memory begins and ends within words of the set of the
pages in its balloon."""

import contextlib
import struct

from vhost_client import PAGE
from vhost_demands import demand_refused
from vhost_moves import HEAD, PROTOCOL, SUM, edited, load, moved_memory, saved, stopped, with_pages

# Pages that a word of the set has.
WORD = 64

# Regions of a guest whose pages are parts of words of the set: the first pages, and how many. The
# second one goes over the border of two words, and has both ends within one.
STARTS, COUNT = (0x103, 0xAD), 27


def odd(client):
    """Gives a client such regions, which weren't handed over yet."""
    client.regions = tuple((it * PAGE, it << 32) for it in STARTS)
    client.pages_of_region = COUNT
    return client


def goes_on_with(source, data, bases, other):
    """Has another client load a device, and its queues go on."""
    assert load(other, data)
    moved_memory(source, other)
    other.negotiate(protocol=PROTOCOL)
    other.add_memory()
    other.go_on(bases)


def test_a_balloon_over_parts_of_words(serve):
    """The first and the last page of a region are moved; those beside it are no memory."""
    client, others = odd(serve()), [odd(serve()) for _ in range(4)]
    client.start_by_events(protocol=PROTOCOL)
    first, last = STARTS[1], STARTS[1] + COUNT - 1
    given = [first, 191, 192, last]
    with_pages(client, given, 4)
    bases, data = stopped(client), saved(client)
    for it in others:
        it.begin(PROTOCOL)
    goes_on_with(client, data, bases, others[0])
    assert others[0].counter("actual") == 4
    stopped(others[0])
    assert saved(others[0])[HEAD:-SUM] == data[HEAD:-SUM]
    for page, other in zip((first - 1, last + 1, STARTS[0] - 1), others[1:]):
        at = HEAD + page // WORD * 8
        (word,) = struct.unpack_from("<Q", data, at)
        wrong = edited(data, at, struct.pack("<Q", word | 1 << page % WORD))
        with contextlib.suppress(AssertionError, ConnectionError):
            goes_on_with(client, wrong, bases, other)
        demand_refused(other, "has pages in the balloon that aren't memory")
