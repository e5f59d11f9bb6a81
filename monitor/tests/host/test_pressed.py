"""Guests whose own work waits for memory, as their counters say. Each is of 128 pages; numbers are
worked out by hand."""

import struct

import pytest
from kept import structs
from played import COUNTERS, Played
from tenants import AVAILABLE, FREE, eventually
from test_policy import QUICK, become, takes_ten_back
from test_strict import GIVEN
from vhost_client import PAGE, SET_CONFIG

# Tags of counters, of VIRTIO 1.1, 5.5.6.3, and of Linux 6.12: those that press, a kill first, and
# those that don't.
KILLS, STALLS = 10, 11
PRESS = {"kills": KILLS, "stalls": STALLS, "in": 0, "out": 1, "scan": 13, "reclaim": 15}
OTHERS = {"major": 2, "minor": 3, "huge": 8, "none": 9, "async-scan": 12, "async-reclaim": 14}

# Nobody is looked at by itself.
SELDOM = ("--strict", "--floor", "0", "--reserve", "0", "--step", "0", "--period", "60000")

# Where `actual` is in the configuration (VIRTIO 1.1, 5.5.4).
ACTUAL_AT = 4


def has_given(guest, pages, before=0):
    """Has a guest's driver put as many pages into its balloon, beside those before, and say so."""
    guest.give(GIVEN[before:pages])
    with guest.lock:
        guest.client.send(SET_CONFIG, struct.pack("<IIII", ACTUAL_AT, 4, 0, pages))


def counts(lender, guest, its):
    """Has a guest report these figures, and waits until the lender has had them twice."""
    guest.figures |= its
    name = guest.name_of
    before = lender.guests()[name]["statistics"]
    eventually(lambda: lender.guests()[name]["statistics"] > before + 1)


def halves(lend, come, tag):
    """Returns a lender and two guests that have given 50 of the 60 pages each that were free."""
    lender = lend(1, *QUICK)
    guests = [come(lender, name, {FREE: 60, AVAILABLE: 100, tag: 7}) for name in "ab"]
    lender.set_budget(156)
    become(lender, {"a": 50, "b": 50})
    for it in guests:
        has_given(it, 50)
        counts(lender, it, {FREE: 10, AVAILABLE: 50})
    become(lender, {"a": 50, "b": 50})
    lender.decisions()
    return lender, guests


@pytest.mark.parametrize("tag", PRESS.values(), ids=PRESS)
def test_a_pressed_guest_gets_its_part_at_once(lend, come, tag):
    # It is asked for no more than the 50 pages that it has given, and the other one for no more
    # than 60: each keeps 5 of them. Nobody has too little otherwise.
    lender, guests = halves(lend, come, tag)
    counts(lender, guests[0], {tag: 8})
    become(lender, {"a": 45, "b": 55})
    said, shares = lender.decisions()[0]
    assert (said["why"], said["who"], said["tier"]) == ("pressure", "a", "unused")
    assert [it["by"] for it in shares.values()] == ["pressure", "statistics"]


def test_who_is_pressed_is_not_named_where_its_target_stays(lend, come):
    """Both have given all that they can, and the other one takes ten pages back."""
    lender, guests = halves(lend, come, KILLS)
    for it in guests:
        counts(lender, it, {FREE: 0, AVAILABLE: 0})
    counts(lender, guests[0], {KILLS: 8})
    lender.become("a", pressed=1)
    takes_ten_back(lender, guests[1])


@pytest.mark.parametrize("tag", OTHERS.values(), ids=OTHERS)
def test_other_counters_press_nobody(lend, come, tag):
    lender, guests = halves(lend, come, tag)
    counts(lender, guests[0], {tag: 8})
    assert [it["pressed"] for it in lender.guests().values()] == [0, 0]
    become(lender, {"a": 50, "b": 50})


def test_a_stall_presses_for_some_seconds(lend, come):
    lender, guests = halves(lend, come, STALLS)
    counts(lender, guests[0], {STALLS: 8})
    lender.become("a", pressed=1)
    lender.become("a", pressed=0)


def test_a_kill_presses_for_longer_than_a_stall(lend, come):
    lender, guests = halves(lend, come, KILLS)
    counts(lender, guests[0], {KILLS: 8})
    become(lender, {"a": 45, "b": 55})
    has_given(guests[1], 55, 50)
    counts(lender, guests[1], {FREE: 5, AVAILABLE: 45, STALLS: 1})
    counts(lender, guests[1], {STALLS: 2})
    lender.become("b", pressed=1)
    lender.become("b", pressed=0)
    assert lender.guests()["a"]["pressed"] == 1


def test_what_its_own_balloon_reclaims_presses_nobody(lend, come):
    # Its driver has put no page into the balloon yet, and the target is 50.
    lender = lend(1, *QUICK)
    guests = [come(lender, name, {FREE: 60, AVAILABLE: 100, STALLS: 7, KILLS: 7}) for name in "ab"]
    lender.set_budget(156)
    become(lender, {"a": 50, "b": 50})
    counts(lender, guests[0], {STALLS: 8})
    assert lender.guests()["a"]["pressed"] == 0
    counts(lender, guests[0], {KILLS: 8})
    assert lender.guests()["a"]["pressed"] == 1


def answers(guest, number, stalls):
    """Has a played process report statistics for the time of this number, with these stalls."""
    counted = [it for _, it in structs()["counters"]]
    figures = ((FREE, 60 * PAGE), (AVAILABLE, 60 * PAGE), (STALLS, stalls))
    counters = tuple(number if it == "statistics" else 0 for it in counted)
    assert len(counters) == COUNTERS
    guest.report(counters=counters, figure_count=len(figures), figures=figures)


# What a guest of 50 pages in its balloon, as its target wants, reports between two samples, and
# whether what it has waited for presses it: it may have inflated toward a target that fell since.
MEANWHILE = {
    "nothing": ((), 1),
    "a greater target": (({"target": 51}, {"target": 50}), 0),
    "pages that it gave up": (({"target": 51}, {"target": 49}, {"ballooned": 49, "actual": 49}), 0),
    "pages that it got": (({}, {"target": 40}, {"ballooned": 40, "actual": 40}), 1),
}


@pytest.mark.parametrize("reports, pressed", MEANWHILE.values(), ids=MEANWHILE)
def test_what_a_balloon_reclaims_between_two_samples_presses_nobody(lend, reports, pressed):
    lender = lend(1, *SELDOM)
    guest = Played(lender, "a", pages=128, ballooned=50, actual=50, target=50)
    answers(guest, 1, 7)
    for it in reports:
        guest.report(**it)
    answers(guest, 2, 8)
    lender.become("a", statistics=2)
    assert lender.guests()["a"]["pressed"] == pressed
    answers(guest, 3, 8)
    answers(guest, 4, 9)
    lender.become("a", statistics=4, pressed=1)
    guest.leave()


def test_another_guest_at_its_socket_is_not_pressed(lend, come):
    lender, guests = halves(lend, come, KILLS)
    counts(lender, guests[0], {KILLS: 8})
    lender.become("a", pressed=1)
    guests[0].leave()
    lender.become("a", here=0, pressed=0)
    come(lender, "a", {FREE: 60, AVAILABLE: 100, KILLS: 9})
    assert lender.guests()["a"]["pressed"] == 0
