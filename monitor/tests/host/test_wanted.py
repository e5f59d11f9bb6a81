"""What guests that wait take in the end, the least budget with which all of them have it, and what
they can spare meanwhile; memory that is to be added to one. Guests have 128 pages."""

import time

import pytest
from bigvasta.connection import Connection
from played import TELL_GONE, WAIT_ROOM, Played
from tenants import FREE, eventually
from test_short import STANDS
from test_strict import GIVEN, STRICT, used
from vhost_client import DEFLATE, PAGE

# Pages of a guest, those of a part that is added to one, those that one has given, and those that
# are to stay available in each.
ALL, PART, GAVE, FLOOR = 128, 64, 50, 20


def demand(lender):
    """Returns both, in pages."""
    its = lender.status()["host"]
    return its["wanted"] // PAGE, its["least_budget"] // PAGE


@pytest.fixture
def starved(lend, come):
    """A host, all of whose frames two guests use: `a` has given 50 pages, and has none left."""
    lender = lend(1, *STRICT)
    a = come(lender, "a", {FREE: GAVE})
    come(lender, "b", {FREE: 0})
    lender.set_budget(2 * ALL - GAVE)
    lender.become("a", asked=GAVE)
    a.give(GIVEN[:GAVE])
    lender.become("a", ballooned=GAVE, lent=ALL - GAVE)
    a.figures[FREE] = 0
    lender.become("a", free=0)
    with Connection(f"{lender.folder}/.control") as it:
        it.ask("floor", bytes=FLOOR * PAGE)
    eventually(lambda: demand(lender) == (0, 2 * ALL - GAVE), lambda: demand(lender))
    return lender, a


# The pages that it asks for, and those that it takes in the end: with its floor, or more.
TAKES = ((5, FLOOR), (FLOOR, FLOOR), (FLOOR + 11, FLOOR + 11))


@pytest.mark.parametrize("asks, takes", TAKES)
def test_what_a_guest_takes_in_the_end(starved, asks, takes):
    lender, a = starved
    a.take(GIVEN[:asks])
    lender.become("a", waits="deflate")
    wanted = takes, 2 * ALL - GAVE + takes
    eventually(lambda: demand(lender) == wanted, lambda: demand(lender))


def test_the_least_budget_is_enough_to_a_page(starved):
    lender, a = starved
    a.take(GIVEN[:FLOOR])
    lender.become("a", waits="deflate")
    _, least = demand(lender)
    lender.set_budget(least - 1)
    time.sleep(STANDS)
    lender.become("a", waits="deflate")
    assert demand(lender) == (FLOOR, least)
    lender.set_budget(least)
    used(a, DEFLATE, 1)
    lender.become("a", waits="nothing")


@pytest.mark.parametrize("asks", (1, FLOOR - 9, GAVE))
def test_a_guest_that_waits_can_spare_what_stays_in_its_balloon_then(starved, asks):
    """Its statistics and its floor don't count meanwhile. The log has what that goes by."""
    lender, a = starved
    lender.become("a", spare=GAVE - FLOOR)
    a.take(GIVEN[:asks])
    lender.become("a", waits="deflate", spare=GAVE - asks)
    lender.decisions()
    lender.set_budget(ALL)
    (_, shares), *_ = eventually(lender.decisions)
    said = {name: (it["spare"], it["by"]) for name, it in shares.items()}
    assert said == {"a": (GAVE - asks, "loan"), "b": (0, "statistics")}


@pytest.fixture
def adding(lend):
    """A host, and the process of a guest that waits to add as much memory as it has."""
    lender = lend(1, *STRICT)
    a, b = Played(lender, "a", pages=PART), Played(lender, "b", pages=ALL)
    lender.set_budget(PART + ALL)
    a.report(waits=WAIT_ROOM, wait=1, wanted=2 * PART)
    lender.become("a", waits="room")
    assert demand(lender) == (PART, 2 * PART + ALL)
    yield lender, a
    for it in (a, b):
        it.leave() if it.is_alive() else None


def test_memory_that_is_to_be_added_counts_as_in_the_balloon(adding):
    """So the guest has all of it as targets are decided, and gives none of it."""
    lender, _ = adding
    lender.decisions()
    lender.set_budget(PART + ALL + 1)
    (_, shares), *_ = eventually(lender.decisions)
    its = tuple(shares["a"][it] for it in ("pages", "ballooned", "spare", "by"))
    assert its == (2 * PART, PART, 0, "loan")


def test_memory_that_is_added_is_a_grant_and_no_guest_that_comes(adding):
    lender, _ = adding
    counts = lambda: [lender.counters()[it] for it in ("grants", "admitted")]
    grants, admitted = counts()
    lender.set_budget(2 * PART + ALL)
    lender.become("a", lent=2 * PART)
    assert counts() == [grants + 1, admitted]
    assert not [it for it in lender.said() if "added memory" in it]


def test_all_is_decided_again_as_memory_is_to_be_added_and_as_it_is(adding):
    """As for a guest that comes: the log says that guests have changed."""
    lender, _ = adding
    found = []

    def last():
        found.extend((said["why"], said["short"]) for said, _ in lender.decisions())
        return found[-1:]

    eventually(lambda: last() == [("guests", PART)], lambda: found)
    lender.set_budget(2 * PART + ALL)
    eventually(lambda: last() == [("guests", 0)], lambda: found)


def test_memory_for_which_a_process_waits_no_longer_is_not_lent(adding):
    """Its wait to add some ends without it, and so does its place in line."""
    lender, a = adding
    a.report(waits=0, wanted=0)
    lender.become("a", waits="nothing")
    assert demand(lender) == (0, PART + ALL)
    lender.set_budget(2 * PART + ALL)
    looks = lender.counters()["looks"]
    eventually(lambda: lender.counters()["looks"] > looks + 1)
    assert lender.guests()["a"]["lent"] == PART


def ends(lender, guest):
    """Its process ends."""
    guest.leave(), lender.become("a", here=0)


def goes(lender, guest):
    """Its client has gone; its process hasn't ended yet."""
    guest.say(TELL_GONE)
    eventually(lambda: lender.counters()["gone"] == 1)


@pytest.mark.parametrize("act, left", ((ends, 0), (goes, PART)))
def test_nobody_waits_for_what_was_to_be_added_to_a_guest_that_has_gone(adding, act, left):
    lender, guest = adding
    act(lender, guest)
    eventually(lambda: demand(lender) == (0, left + ALL), lambda: demand(lender))
    assert lender.guests()["a"]["lent"] == left


def test_a_deflate_after_another_one_ends_the_wait_of_that(lend):
    """Its process tells of both, and of nothing between."""
    lender = lend(1, *STRICT)
    lender.set_budget(ALL - GAVE)
    a = Played(lender, "a", pages=ALL, ballooned=GAVE, target=GAVE)
    for pages in 5, 6:
        a.deflates(pages)
        lender.become("a", waits="deflate")
    eventually(lambda: lender.status()["host"]["measures"]["ungranted"]["withdrawn"] == 1)
    a.leave()
