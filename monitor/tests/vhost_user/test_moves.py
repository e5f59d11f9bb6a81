"""Tests of a device that moves to another process, as its guest migrates: it is saved into a pipe
by one, and loaded from a pipe by the other."""

import socket
import struct

import pytest
from vhost_client import (
    CHECK_DEVICE_STATE,
    DEFLATE,
    FEATURES,
    GET_CONFIG,
    INFLATE,
    NO_FILE,
    PAGE,
    RESET_DEVICE,
    SET_VRING_ENABLE,
    SET_VRING_KICK,
)
from vhost_demands import FIRST, demand_refused, demand_served
from vhost_moves import (
    FINE,
    HEAD,
    LOAD,
    PROTOCOL,
    SAVE,
    SUM,
    WELL,
    WRONG,
    arrive,
    ask,
    load,
    moved_memory,
    saved,
    stopped,
    with_pages,
)


def test_a_balloon_goes_on_elsewhere(ready, serve):
    client = ready()
    with_pages(client, [FIRST, FIRST + 2], 7)
    other, bases = arrive(client, serve)
    assert (other.counter("target"), bases[INFLATE]) == (7, 1)
    other.negotiate(protocol=PROTOCOL)
    other.add_memory()
    other.go_on(bases)
    assert (other.counter("actual"), other.counter("target")) == (2, 7)
    assert other.called(INFLATE) == 1  # who was served last may not have been told of it
    demand_served(other, INFLATE, [FIRST + 3])


def test_what_was_sent_of_the_balloon_is_given_up(ready, serve):
    """Pages that were sent before they went into the balloon are no longer held; no others go."""
    client = ready()
    with_pages(client, [FIRST, FIRST + 2], 2)
    other, bases = arrive(client, serve)
    for page in (FIRST, FIRST + 1, FIRST + 2):
        other.write(page * PAGE, b"\xaa" * PAGE)
    other.negotiate(protocol=PROTOCOL)
    other.add_memory()
    other.go_on(bases)
    assert other.counter("actual") == 2
    assert [it for it in other.holes() if FIRST <= it < FIRST + 3] == [FIRST, FIRST + 2]
    assert other.read((FIRST + 1) * PAGE, PAGE) == b"\xaa" * PAGE


def test_a_driver_that_needn_t_tell_keeps_all(ready, serve):
    """It may have taken a page of the balloon into use that the device still has in its set."""
    client = serve()
    client.start_by_events(features=FEATURES & ~1, protocol=PROTOCOL)
    with_pages(client, [FIRST], 1)
    other, bases = arrive(client, serve)
    other.write(FIRST * PAGE, b"\xaa" * PAGE)
    other.negotiate(FEATURES & ~1, PROTOCOL)
    other.add_memory()
    other.go_on(bases)
    assert other.counter("actual") == 1
    assert other.read(FIRST * PAGE, PAGE) == b"\xaa" * PAGE


def test_a_new_driver_after_a_load(ready, serve):
    """A guest that was reset before its queues ran begins with nothing in its balloon."""
    client = ready()
    with_pages(client, [FIRST], 1)
    other, _ = arrive(client, serve)
    other.write(FIRST * PAGE, b"\xaa" * PAGE)
    other.negotiate(protocol=PROTOCOL)
    other.add_memory()
    other.available = [0] * 5
    other.go_on()
    assert other.counter("actual") == 0
    assert other.read(FIRST * PAGE, PAGE) == b"\xaa" * PAGE
    stopped(other)
    assert not any(saved(other)[HEAD:-SUM])


def test_a_new_driver_after_another_one(ready):
    """Nothing is in its balloon, of which the device is saved."""
    client = ready()
    with_pages(client, [FIRST], 1)
    stopped(client)
    client.go_on()
    stopped(client)
    data = saved(client)
    assert len(data) > HEAD + SUM and not any(data[HEAD:-SUM])


def test_a_device_is_saved_once_for_a_pipe(ready):
    """What was asked for and answered isn't answered again."""
    client = ready()
    stopped(client)
    data = saved(client)
    for _ in range(2):
        assert client.send(CHECK_DEVICE_STATE) == WRONG
        assert "there is no state of a device" in client.why()
    assert load(client, data)
    assert client.send(CHECK_DEVICE_STATE) == WRONG


def test_a_reset_forgets_a_device_that_was_loaded(ready, serve):
    """Its target alone stays, as of another device (docs/LINUX.md, RESET_DEVICE)."""
    client = ready()
    with_pages(client, [FIRST], 7)
    other, _ = arrive(client, serve)
    other.accepted(RESET_DEVICE)
    plain = serve()
    plain.begin(PROTOCOL)
    plain.backend.ask("target 7")
    assert saved(other) == saved(plain)


def test_a_device_that_comes_back(ready, serve):
    """Where a guest was before it migrated nothing is left of its balloon as it was then."""
    client = ready()
    with_pages(client, [FIRST, FIRST + 2], 7)
    other, bases = arrive(client, serve)
    other.negotiate(protocol=PROTOCOL)
    other.add_memory()
    other.go_on(bases)
    assert other.called(INFLATE) == 1
    demand_served(other, DEFLATE, [FIRST])
    with_pages(other, [FIRST + 5], 8)
    bases, data = stopped(other), saved(other)
    assert load(client, data) and saved(client) == data
    moved_memory(other, client)
    client.go_on(bases)
    assert (client.counter("actual"), client.counter("target")) == (1, 8)
    stopped(client)
    assert saved(client)[HEAD:-SUM] == data[HEAD:-SUM]


def test_a_driver_that_goes_on_at_index_0(ready, serve):
    """65536 requests were used: the state says that the driver continues, and no guess does; and
    what was sent of its balloon is given up."""
    client = ready()
    client.write(client.table(INFLATE) + PAGE + 2, b"\xff\xff")
    client.write(client.table(INFLATE) + 2 * PAGE + 2, b"\xff\xff")
    client.stop_ring(INFLATE)
    client.tell_place(INFLATE, base=0xFFFF)
    client.give_events(INFLATE)
    assert client.called(INFLATE) == 1
    client.available[INFLATE] = 0xFFFF
    with_pages(client, [FIRST], 1)
    other, bases = arrive(client, serve)
    assert bases[INFLATE] == 0
    other.write(FIRST * PAGE, b"\xaa" * PAGE)
    other.negotiate(protocol=PROTOCOL)
    other.add_memory()
    other.go_on(bases)
    assert other.counter("actual") == 1 and FIRST in other.holes()


def test_a_source_goes_on(ready):
    """A migration that is cancelled after the device was saved."""
    client = ready()
    with_pages(client, [FIRST], 1)
    bases = stopped(client)
    assert saved(client)
    client.go_on(bases)
    assert client.counter("actual") == 1
    assert client.called(INFLATE) == 1
    demand_served(client, INFLATE, [FIRST + 1])


def test_a_device_of_which_no_driver_is_ready(serve):
    client, other = serve(), serve()
    for it in (client, other):
        it.begin(PROTOCOL)
    client.backend.ask("target 9")
    assert load(other, saved(client))
    assert other.counter("target") == 9
    other.start_by_events(protocol=PROTOCOL)
    assert other.counter("actual") == 0


# Where a device says whether its driver continues.
CONTINUES_AT = 16


def test_a_device_none_of_whose_queues_has_started(serve):
    """It has features and memory, and no driver that continues; nor has one that loads it."""
    client, other = serve(), serve()
    for it in (client, other):
        it.negotiate(protocol=PROTOCOL)
        it.add_memory()
    data = saved(client)
    assert load(other, data) and len(data) > HEAD + SUM
    for its in (data, saved(other)):
        assert its[CONTINUES_AT : CONTINUES_AT + 4] == bytes(4)


def test_a_stream_in_place_of_a_pipe(ready, serve):
    client = ready()
    with_pages(client, [FIRST], 3)
    stopped(client)
    other = serve()
    other.begin(PROTOCOL)
    for it, direction in ((client, SAVE), (other, LOAD)):
        ours, theirs = socket.socketpair()
        assert ask(it, theirs.detach(), direction) == WELL
        if direction == SAVE:
            with ours.makefile("rb") as file:
                data = file.read()
        else:
            ours.sendall(data)
        ours.close()
        assert it.send(CHECK_DEVICE_STATE) == FINE
    assert (other.counter("target"), len(data)) == (3, len(saved(client)))


def test_a_state_of_another_memory(ready, serve):
    client = ready()
    with_pages(client, [FIRST], 1)
    other, bases = arrive(client, serve)
    other.pages_of_region = 32
    other.negotiate(protocol=PROTOCOL)
    other.add_memory()
    demand_no_start(other, bases)


def test_a_state_of_another_memory_than_there_is(ready, serve):
    """Where the guest's memory ends is known by itself, and not by a state that comes after it."""
    client = ready()
    with_pages(client, [FIRST], 1)
    bases = stopped(client)
    other = serve()
    other.pages_of_region = 32
    other.negotiate(protocol=PROTOCOL)
    other.add_memory()
    assert load(other, saved(client))
    assert other.counter("end") == 0x1A0
    other.available = list(client.available)
    demand_no_start(other, bases)


def demand_no_start(client, bases):
    """Demands that no queue starts over memory that ends after 416 pages, by the state of a guest
    with 448."""
    for number in range(4):
        client.write(client.table(number) + 2 * PAGE + 2, struct.pack("<H", bases[number]))
        client.tell_place(number, base=bases[number])
    client.send(SET_VRING_KICK, struct.pack("<Q", INFLATE | NO_FILE), flags=1)
    client.send(SET_VRING_ENABLE, struct.pack("<II", INFLATE, 1), flags=1)
    words = "memory up to 0x1c0000, and this guest 0x1a0000"
    demand_refused(client, f"the device that was loaded has {words}")


# Where a device says which features are offered, and where its sums are (docs/LINUX.md,
# "Migration", docs/INTEGRATION.md, "A saved state").
OFFERED_AT, OFFERED_END, SUM_AT = 56, 64, HEAD - SUM


def without_offer(data):
    """Returns a device but for the features that its backend offers, and the sums of that."""
    return data[:OFFERED_AT], data[OFFERED_END:SUM_AT], data[HEAD:-SUM]


@pytest.mark.parametrize("options", ((), ("--hints",)), ids=("alike", "with other features"))
@pytest.mark.parametrize("pages", (0, 32, 64), ids=("no memory", "other memory", "its memory"))
def test_a_device_that_is_saved_again_before_it_begins(ready, serve, options, pages):
    """It is what was loaded, whatever memory there is: a guest that stays paused migrates twice."""
    client = ready()
    with_pages(client, [FIRST, FIRST + 2], 7)
    bases = stopped(client)
    data = saved(client)
    other = serve(*options)
    other.begin(PROTOCOL)
    if pages > 0:
        other.pages_of_region = pages
        other.add_memory()
    assert load(other, data)
    again = saved(other)
    assert without_offer(again) == without_offer(data)
    third = serve()
    third.begin(PROTOCOL)
    assert load(third, again)
    moved_memory(client, third)
    third.negotiate(protocol=PROTOCOL)
    third.add_memory()
    third.go_on(bases)
    assert (third.counter("actual"), third.counter("target")) == (2, 7)


def test_the_balloon_is_shown_while_no_queue_runs(ready, serve):
    client = ready()
    with_pages(client, [FIRST, FIRST + 1], 2)
    other, _ = arrive(client, serve)
    for it in (client, other):
        answer = it.send(GET_CONFIG, struct.pack("<III", 0, 32, 0) + bytes(32))
        assert struct.unpack_from("<4sIII", answer, 12 + 16) == (b"VBCA", 1, 2, 2)
