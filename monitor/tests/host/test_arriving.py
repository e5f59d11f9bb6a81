"""Guests that come from another host with their balloons, and that leave for one. They have 128
pages."""

import contextlib
import os
import struct

import pytest
from bigvasta.connection import Connection
from moving import ALL, EACH_WAY, WAYS, continues, with_pages
from tenants import FREE, eventually, read_target
from test_strict import GIVEN, Later, lent
from vhost_client import (
    ADD_MEM_REG,
    DEFLATE,
    FEATURES,
    HAS_PROTOCOL,
    INFLATE,
    PAGE,
    PAGES_OF_REGION,
    REM_MEM_REG,
    RESET_DEVICE,
    SET_FEATURES,
    SET_OWNER,
)
from vhost_demands import demand_served, word
from vhost_logs import log_base, log_file, set_logging
from vhost_moves import FINE, HEAD, PROTOCOL, WRONG, comes, edited, load, saved, stopped

# Pages in the balloon of a guest that comes from another host.
GIVEN_UP = 88


@pytest.fixture
def moving(migrating):
    """Returns a lender and its guest that is to migrate, and what its device is: 88 of its 128
    pages are in its balloon."""
    source, client = migrating()
    with_pages(source, client, GIVEN[:GIVEN_UP])
    bases = stopped(client)
    return source, client, bases, saved(client)


@pytest.fixture
def crowded(migrating, come):
    """Returns a lender with as many pages for one that comes as it is said, beside another guest
    that has none to spare; and the client that comes."""

    def make(pages):
        lender, client = migrating(starts=False)
        come(lender, "b", {FREE: 0})
        lender.set_budget(ALL + pages)
        return lender, client

    return make


@EACH_WAY
def test_a_guest_comes_with_its_balloon(moving, crowded, lend, way):
    """It is lent what isn't in its balloon, before any of its memory is there; and no more
    later."""
    source, client, bases, data = moving
    lender, other = crowded(ALL - GIVEN_UP)
    read_target(other)  # no driver of this guest's obeys that
    assert comes(other, GIVEN_UP, ALL) == FINE
    is_lent = {"pages": ALL, "lent": ALL - GIVEN_UP, "ballooned": GIVEN_UP}
    lender.become("a", **is_lent, ready=0)
    lender = WAYS[way](lender, lend)
    lender.become("a", ballooned=GIVEN_UP)
    assert lender.guests()["a"]["lent"] == ALL - GIVEN_UP
    lender.set_budget(ALL + ALL - GIVEN_UP)
    lender.become("a", **is_lent, ready=0)
    assert load(other, data)
    source.become("a", lent=ALL - GIVEN_UP, here=1)
    continues(other, client, bases)
    lender.become("a", **is_lent, ready=1, waits="nothing", cooperates=1)
    assert lent(lender) == ALL + ALL - GIVEN_UP
    source.become("a", lent=ALL - GIVEN_UP, here=1)


def test_there_is_no_room_for_who_comes(moving, crowded):
    """By one page: it is refused by name before any of its memory is there, and continues where it
    was."""
    source, client, bases, _ = moving
    lender, other = crowded(ALL - GIVEN_UP - 1)
    with contextlib.suppress(ConnectionResetError):
        assert comes(other, GIVEN_UP, ALL) is None
    lender.become("a", here=0, lent=0)
    lender.hear()
    assert "refused a: no room for 512K: 4K are missing" in lender.said()
    assert lender.counters()["refused"] == 1 and lent(lender) == ALL
    client.go_on(bases)
    source.become("a", ready=1, ballooned=GIVEN_UP, lent=ALL - GIVEN_UP)


def test_who_is_not_strict_comes_with_all_of_its_memory(crowded, lend):
    """Whatever it says: its deflates don't wait, so nothing of it counts as given up."""
    lender, other = crowded(ALL - 1)
    lender.demand("terms a strict=0")
    other.socket.close()
    lender.become("a", here=0)
    other.connect()
    other.begin(PROTOCOL)
    with contextlib.suppress(ConnectionResetError):
        assert comes(other, GIVEN_UP, ALL) is None
    lender.become("a", here=0, lent=0)
    lender.hear()
    assert "refused a: no room for 512K: 4K are missing" in lender.said()
    lender.set_budget(2 * ALL)
    other.connect()
    other.begin(PROTOCOL)
    assert comes(other, GIVEN_UP, ALL) == FINE
    lender.become("a", lent=ALL, ballooned=0)
    other.add_memory()
    lender.become("a", lent=ALL, ballooned=0, pages=ALL)
    assert lent(lender) == 2 * ALL


def test_who_has_come_with_all_of_its_memory_may_lose_some(crowded):
    """What it said counts until the memory is there; and no more then."""
    lender, other = crowded(ALL)
    assert comes(other, 0, ALL) == FINE
    for region, file in enumerate(other.files):
        other.accepted(ADD_MEM_REG, other.region_body(region), [file])
        lender.become("a", pages=ALL, lent=ALL)
    other.accepted(REM_MEM_REG, other.region_body(1))
    lender.become("a", pages=PAGES_OF_REGION, lent=PAGES_OF_REGION)


@pytest.mark.parametrize("given, pages", ((ALL + 1, ALL), (0, 0), (2**32 - 1, 2**32 - 2)))
def test_who_comes_with_what_cannot_be(crowded, given, pages):
    lender, other = crowded(ALL)
    with contextlib.suppress(ConnectionResetError):
        assert comes(other, given, pages) in (None, WRONG)
    lender.become("a", here=0, lent=0)
    assert lent(lender) == ALL


def test_a_device_with_fewer_pages_in_its_balloon_than_it_was_to_come_with(moving, crowded):
    """It is refused, as they were lent to nobody."""
    _, _, _, data = moving
    lender, other = crowded(ALL)
    assert comes(other, GIVEN_UP + 1, ALL) == FINE
    assert not load(other, data)
    lender.tells("a: the device that is to be loaded has fewer pages in its balloon than it was to")
    lender.become("a", lent=ALL - GIVEN_UP - 1)


def test_who_comes_with_all_of_its_memory_in_its_balloon_is_answered(crowded):
    """It is lent a page, by whose grant it is let in."""
    lender, other = crowded(1)
    assert comes(other, ALL, ALL) == FINE
    lender.become("a", pages=ALL, lent=1, waits="nothing")


@pytest.mark.parametrize("is_loaded", (False, True), ids=("no device", "its device"))
def test_who_comes_and_starts_from_scratch_waits_for_all(moving, crowded, is_loaded):
    """No more comes than is lent, though it said that it comes with its balloon."""
    _, _, _, data = moving
    lender, other = crowded(ALL - GIVEN_UP)
    assert comes(other, GIVEN_UP, ALL) == FINE
    lender.become("a", lent=ALL - GIVEN_UP, ballooned=GIVEN_UP)
    if is_loaded:
        assert load(other, data)
    other.negotiate(protocol=PROTOCOL)
    other.add_memory()
    starts = Later(other.go_on)
    lender.become("a", waits="reset", lent=ALL - GIVEN_UP, ballooned=GIVEN_UP)
    assert starts.waits() and lent(lender) == ALL + ALL - GIVEN_UP
    lender.set_budget(2 * ALL)
    starts.ends()
    lender.become("a", ready=1, lent=ALL, ballooned=0, waits="nothing", cooperates=1)


def test_who_says_again_what_it_comes_with(moving, crowded):
    """The last word counts, also of a device that has come before it."""
    _, client, bases, data = moving
    lender, other = crowded(ALL)
    assert comes(other, GIVEN_UP, ALL) == FINE and load(other, data)
    assert comes(other, GIVEN_UP + 1, ALL) == FINE
    with contextlib.suppress(ConnectionResetError, BrokenPipeError, TypeError, AssertionError):
        continues(other, client, bases)
    lender.become("a", here=0, lent=0)
    lender.hear()
    assert any("has fewer pages in its balloon than it was" in it for it in lender.said())


def test_who_comes_with_less_given_up_than_it_has_said(crowded):
    """It is refused by name, as no more was lent to it."""
    lender, other = crowded(ALL - GIVEN_UP)
    assert [comes(other, GIVEN_UP, ALL) for _ in range(2)] == 2 * [FINE]
    lender.become("a", lent=ALL - GIVEN_UP, waits="nothing")
    with contextlib.suppress(ConnectionResetError):
        assert comes(other, GIVEN_UP - 1, ALL) is None
    lender.become("a", here=0, lent=0)
    lender.tells("refused a: it comes with 87 pages given up, and was to with 88")


def test_what_is_no_memory_is_not_in_a_balloon(moving, crowded):
    """A device whose balloon has as many pages as were said, which the guest doesn't have."""
    _, client, bases, data = moving
    lender, other = crowded(ALL - GIVEN_UP)
    assert comes(other, GIVEN_UP, ALL) == FINE
    low = struct.pack("<7Q", 2**64 - 1, 2 ** (GIVEN_UP - 64) - 1, *5 * [0])
    assert load(other, edited(data, HEAD, low))
    with contextlib.suppress(ConnectionError, TypeError, AssertionError):
        continues(other, client, bases)
    lender.become("a", here=0, lent=0)
    lender.hear()
    assert any("has pages in the balloon that aren't memory" in it for it in lender.said())


def test_a_start_is_not_for_who_comes_from_another_host(migrating, moving, limits):
    """It would have less than it brings."""
    _, client, bases, data = moving
    its = limits("a")
    lender, other = migrating(starts=False)
    with Connection(f"{lender.folder}/.control") as control:
        terms = {"start": 10 * PAGE, "overhead": ALL * PAGE, "limit": its.term}
        control.ask("guest", name="a", **terms)
    assert comes(other, GIVEN_UP, ALL) == FINE
    lender.become("a", lent=ALL - GIVEN_UP, ballooned=GIVEN_UP)
    lender.set_budget(ALL - GIVEN_UP)
    assert load(other, data)
    continues(other, client, bases)
    lender.become("a", lent=ALL - GIVEN_UP, ready=1)


def granted_as_it_migrates(migrating):
    """Returns a lender and a guest whose deflate waited, and is granted while it migrates."""
    lender, client = migrating()
    with_pages(lender, client, GIVEN[:60])
    assert log_base(client, log_file()) == bytes(8)
    lender.set_budget(ALL - 60)
    client.post_pages(DEFLATE, GIVEN[:1])
    lender.become("a", waits="deflate")
    set_logging(client, True)
    lender.set_budget(ALL)
    lender.become("a", lent=ALL)
    return lender, client


def test_a_guest_that_migrates_takes_no_pages(migrating):
    """A deflate waits until it has arrived, or stays: so it has no more pages than it was to come
    with. One that was held before is granted, and waits all the same."""
    lender, client = granted_as_it_migrates(migrating)
    client.post_pages(DEFLATE, GIVEN[1:2])
    demand_served(client, INFLATE, GIVEN[60:61])
    lender.become("a", ballooned=61)
    assert client.used(DEFLATE)[0] == 0
    client.accepted(SET_FEATURES, word(FEATURES | HAS_PROTOCOL))
    eventually(lambda: client.used(DEFLATE)[0] == 2)
    lender.become("a", ballooned=59, waits="nothing")


@pytest.mark.parametrize("message", (RESET_DEVICE, SET_OWNER))
def test_a_guest_that_migrates_may_reset_its_device(migrating, message):
    """Its deflate, which is granted and waits for the migration's end, is forgotten by that."""
    lender, client = granted_as_it_migrates(migrating)
    client.accepted(message)
    lender.become("a", ready=0, ballooned=0, waits="nothing")


def test_a_guest_that_is_loaded_with_fewer_pages_in_its_balloon_waits(migrating, come):
    """As it was saved, over what it is now: its queues start once what it has more is lent."""
    lender, client = migrating()
    with_pages(lender, client, GIVEN[:10])
    bases = stopped(client)
    data, rings = saved(client), client.read(client.table(INFLATE), 3 * PAGE)
    client.go_on(bases)
    client.post_pages(INFLATE, GIVEN[10:60])
    lender.reclaim("a", client, 60)
    come(lender, "b", {FREE: 0})
    lender.set_budget(ALL + ALL - 60)
    stopped(client)
    assert load(client, data)
    client.write(client.table(INFLATE), rings)
    starts = Later(lambda: client.go_on(bases))
    lender.become("a", waits="reset", lent=ALL - 60)
    assert starts.waits() and lent(lender) == ALL + ALL - 60
    lender.set_budget(2 * ALL)
    starts.ends()
    lender.become("a", ready=1, ballooned=10, waits="nothing", cooperates=1)
    assert lent(lender) <= 2 * ALL


def test_a_guest_that_is_loaded_without_a_driver_waits(migrating, come):
    """As it was saved before its driver was ready: nothing is in its balloon."""
    lender, client = migrating(starts=False)
    client.negotiate(protocol=PROTOCOL)
    client.add_memory()
    data = saved(client)
    client.go_on()
    client.post_pages(INFLATE, GIVEN[:60])
    lender.reclaim("a", client, 60)
    come(lender, "b", {FREE: 0})
    lender.set_budget(ALL + ALL - 60)
    stopped(client)
    loads = Later(lambda: load(client, data) or pytest.fail("it isn't loaded"))
    lender.become("a", waits="reset", lent=ALL - 60)
    assert loads.waits() and lent(lender) == ALL + ALL - 60
    lender.set_budget(2 * ALL)
    loads.ends()
    client.go_on()
    lender.become("a", ready=1, ballooned=0, lent=ALL, waits="nothing", cooperates=1)


def test_a_deflate_that_waited_is_granted_where_the_guest_arrives(migrating, crowded):
    source, client = migrating()
    with_pages(source, client, GIVEN[:GIVEN_UP])
    assert log_base(client, log_file()) == bytes(8)
    set_logging(client, True)
    client.post_pages(DEFLATE, GIVEN[:8])
    bases = stopped(client)
    data = saved(client)
    lender, other = crowded(ALL - GIVEN_UP)
    assert comes(other, GIVEN_UP, ALL) == FINE and load(other, data)
    lender.demand("a target 80")
    continues(other, client, bases)
    lender.become("a", ready=1, waits="deflate", lent=ALL - GIVEN_UP, ballooned=GIVEN_UP)
    lender.set_budget(ALL + ALL - GIVEN_UP + 8)
    lender.become("a", waits="nothing", lent=ALL - GIVEN_UP + 8, ballooned=GIVEN_UP - 8)
    assert other.used(DEFLATE)[0] == 1 and source.guests()["a"]["ballooned"] == GIVEN_UP


def test_what_a_client_reads_of_a_guest_that_migrates_is_counted(migrating, come):
    """Each page that is read takes a frame, unless holes aren't read: all count as lent then, and
    others give for them."""
    lender, client = migrating()
    lender.demand("terms a overhead=0")
    b = come(lender, "b", {FREE: 100})
    with_pages(lender, client, GIVEN[:GIVEN_UP])
    lender.set_budget(ALL + ALL - GIVEN_UP)
    assert log_base(client, log_file()) == bytes(8)
    set_logging(client, True)
    for file in client.files:
        os.posix_fallocate(file, 0, os.fstat(file).st_size)
    lender.become("a", lent=ALL, cooperates=0)
    lender.hear()
    said = [it for it in lender.said() if "unasked: all its memory counts as lent" in it]
    assert len(said) == 1 and said[0].startswith("a: has taken ")
    lender.become("b", target=GIVEN_UP)
    assert b.is_alive()
