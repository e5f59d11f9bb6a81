"""Guests at rest: they are asked in one period of five, and nothing is missed by that."""

import time

import pytest
from tenants import FREE, PAGES, eventually, go_on, process_of, stop

# Seconds of a period, those in which a guest that does nothing has come to rest; in how many
# periods one that rests is asked once, those for which it is looked at, and how often.
PERIOD, RESTED, ASKED_ONCE_IN, LOOKS, TRIES = 0.05, 1.5, 5, 80, 5

# The tags of allocations that stalled, and of what a kernel looks at and takes back in the
# background (Linux 6.12).
STALLS, RECLAIMS = 11, (12, 14)


@pytest.fixture
def resting(lend, come):
    """A lender, and a guest that has come to rest."""
    lender = lend(5, "--floor", "0", "--step", "0", "--period", str(int(PERIOD * 1000)))
    guest = come(lender, "a", {FREE: 60})
    time.sleep(RESTED)
    return lender, guest


def asked_in(lender, looks):
    """Returns how often a guest is asked while a lender looks this many times, and how many looks
    it were."""

    def counted():
        return lender.guests()["a"]["statistics"], lender.counters()["looks"]

    asked, before = counted()
    time.sleep(looks * PERIOD)
    now, then = counted()
    return now - asked, then - before


def test_a_guest_at_rest_is_asked_in_one_period_of_five(resting):
    # Where the machine holds up a guest that answers, it isn't at rest.
    lender, _ = resting
    for _ in range(TRIES):
        asked, looks = asked_in(lender, LOOKS)
        if abs(asked - looks / ASKED_ONCE_IN) <= 1:
            return
    raise AssertionError(f"it is asked {asked} times in {looks} looks")


def test_a_guest_that_has_changed_is_not_at_rest_for_ten_periods(resting):
    lender, guest = resting
    for free in range(30, 30 + TRIES):
        guest.figures[FREE] = free
        lender.become("a", free=free)
        asked, looks = asked_in(lender, 6)
        if asked >= looks - 2:
            return
        time.sleep(RESTED)
    raise AssertionError(f"it is asked {asked} times in {looks} looks")


@pytest.mark.parametrize("tag", RECLAIMS)
def test_a_guest_that_reclaims_is_not_at_rest(resting, tag):
    # Its work may come to wait at any time.
    lender, guest = resting
    for count in range(1, 1 + TRIES):
        before = lender.guests()["a"]["statistics"]
        guest.figures[tag] = count
        eventually(lambda: lender.guests()["a"]["statistics"] > before + 1)
        asked, looks = asked_in(lender, 6)
        if asked >= looks - 2:
            return
        time.sleep(RESTED)
    raise AssertionError(f"it is asked {asked} times in {looks} looks")


def test_a_pressed_guest_is_asked_in_each_period(resting):
    # Nothing of it changes but its stalls. Where the machine holds up a guest, it is asked less.
    lender, guest = resting
    guest.figures[STALLS] = 0
    before = lender.guests()["a"]["statistics"]
    eventually(lambda: lender.guests()["a"]["statistics"] > before + 1)
    for stalls in range(1, 1 + TRIES):
        guest.figures[STALLS] = stalls
        lender.become("a", pressed=1)
        asked, looks = asked_in(lender, LOOKS // 2)
        if asked >= looks - looks // ASKED_ONCE_IN:
            return
        lender.become("a", pressed=0)
    raise AssertionError(f"it is asked {asked} times in {looks} looks")


def test_what_changes_of_a_guest_at_rest_is_heard(resting):
    lender, guest = resting
    guest.figures[FREE] = 30
    lender.become("a", free=30, spare=30)
    time.sleep(RESTED)
    lender.demand("a target 10")
    guest.give(list(range(PAGES, PAGES + 10)))
    lender.become("a", ballooned=10)
    time.sleep(RESTED)
    guest.take(list(range(PAGES, PAGES + 4)))
    lender.become("a", ballooned=6, taken=4)


def test_a_guest_at_rest_that_falls_silent_is_told_from_its_process(resting, come):
    lender, guest = resting
    come(lender, "b", {FREE: 60})
    time.sleep(RESTED)
    guest.answers, process = False, process_of(lender, "b")
    stop(process)
    try:
        lender.become("a", answers=0, reports=1)
        lender.become("b", reports=0)
    finally:
        go_on(process)
    guest.answers = True
    guest.tell()
    lender.become("a", answers=1), lender.become("b", answers=1, reports=1)


def follows(lender, budget, target):
    """Sets a budget; returns the seconds until the guest's process has told that it has heard its
    new target."""
    begin = time.monotonic()
    lender.demand(f"budget {budget}")
    lender.become("a", asked=target, target=target)
    return time.monotonic() - begin


def test_budgets_are_followed_at_once_by_a_guest_at_rest(resting):
    lender, _ = resting
    took = []
    for _ in range(5):
        took.append(follows(lender, 0, 60))
        took.append(follows(lender, 5, 0))
        time.sleep(RESTED)
    assert min(took) < 0.3, took
