"""What a guest at rest may change by, to a page, and what has it asked in each period. A test plays
its process, and has the lender hear of each change amid a period."""

import pytest
from kept import structs
from played import ORDER_LOOK, ORDER_TARGET, Played
from tenants import AVAILABLE, FREE, PAGE, eventually

# Pages of a guest, of which a 256th is little; what it holds at first in KiB, and can spare.
ALL, LITTLE, HELD, SPARE = 1024, 4, 2000, 100

# Milliseconds of a period, periods after which a guest rests that stays as it is, and in how many
# it is asked once then; how often that is tried.
PERIOD, RESTS_AFTER, ASKED_ONCE_IN, TRIES = 100, 10, 5, 3
WORDS = ("--strict", "--floor", "0", "--reserve", "0", "--step", "0", "--period", str(PERIOD))

# The tag of what a kernel takes back in the background (Linux 6.12).
RECLAIMS = 14


class Still(Played):
    """A process that tells the statistics of a guest each time that it is asked for them."""

    asked, told, silent, looks = 0, 0, False, ""
    figures = {FREE: 7, AVAILABLE: SPARE, RECLAIMS: 1}

    def tell(self, **changed):
        """Tells statistics, and what has changed."""
        self.told += 1
        counted = [it for _, it in structs()["counters"]]
        self.its["counters"] = tuple(self.told if it == "statistics" else 0 for it in counted)
        self.its["figures"] = tuple((tag, it * PAGE) for tag, it in self.figures.items())
        self.report(figure_count=len(self.figures), **changed)

    def change(self, figures=(), **changed):
        """Tells what has changed."""
        self.figures = {**self.figures, **dict(figures)}
        self.tell(**changed)

    def obey(self, order):
        self.looks += str(order.asks) if order.kind == ORDER_LOOK else ""
        if order.kind == ORDER_LOOK and order.asks:
            self.asked += 1
            if not self.silent:
                self.tell()
        if order.kind != ORDER_TARGET:
            super().obey(order)
        else:
            self.targets.append(order.target)


def looks(lender):
    """Returns how often a lender has looked; nobody is asked for that."""
    return lender.status()["host"]["counters"]["looks"]


def asked_in(lender, guest, count):
    """Returns how often a guest is asked while a lender looks this many times, from the next look
    on, and how often it looked."""
    before = looks(lender)
    first = eventually(lambda: (now := looks(lender)) > before and now)
    asked = guest.asked
    last = eventually(lambda: (now := looks(lender)) >= first + count and now)
    return guest.asked - asked, last - first


def rests(lender, guest):
    """Waits until a guest isn't asked in each period."""

    def seldom():
        asked, count = asked_in(lender, guest, ASKED_ONCE_IN)
        return asked <= count - 3

    eventually(seldom)


@pytest.fixture
def still(lend):
    """A lender, and a guest that rests."""
    lender = lend(8, *WORDS)
    guest = Still(lender, "a", pages=ALL, held_kib=HELD)
    guest.tell()
    rests(lender, guest)
    yield lender, guest
    guest.leave()


# Changes that leave it at rest: each is little beside how it was as it came to rest.
LEAVE = {
    "it holds little more": {"held_kib": HELD + 4 * LITTLE},
    "it holds little less": {"held_kib": HELD - 4 * LITTLE},
    "it can spare little more": {"figures": {AVAILABLE: SPARE + LITTLE}},
    "it can spare little less": {"figures": {AVAILABLE: SPARE - LITTLE}},
    "more is free of what it can spare": {"figures": {FREE: 90}},
    "it has other figures": {"figures": {2: 900}},
    "nobody looks at it": {"status": 7, "end": 9},
}

# Changes that don't.
MOVE = {
    "it holds a page beyond that more": {"held_kib": HELD + 4 * (LITTLE + 1)},
    "it holds a page beyond that less": {"held_kib": HELD - 4 * (LITTLE + 1)},
    "it can spare a page beyond that more": {"figures": {AVAILABLE: SPARE + LITTLE + 1}},
    "it can spare a page beyond that less": {"figures": {AVAILABLE: SPARE - LITTLE - 1}},
    "its kernel takes back a page": {"figures": {RECLAIMS: 2}},
    "it has fewer pages": {"pages": ALL - 1, "wanted": ALL - 1},
}


def changed(lender, guest, **its):
    """Has a guest change after a look; returns how often it is asked in the next six, and how often
    the lender looks."""
    before = looks(lender)
    eventually(lambda: looks(lender) > before)
    guest.change(**its)
    return asked_in(lender, guest, 6)


def test_what_leaves_a_guest_at_rest(still):
    for what, its in LEAVE.items():
        asked, count = changed(*still, **its)
        assert asked <= count - 3, (what, asked, count)


@pytest.mark.parametrize("its", MOVE.values(), ids=MOVE)
def test_what_moves_a_guest_at_rest(still, its):
    asked, count = changed(*still, **its)
    assert asked >= count - 1, (asked, count)


def test_who_stays_as_it_is_rests_from_the_tenth_period_on(still):
    """Amid each period before, it is ordered to look, which asks for nothing."""
    lender, guest = still
    for number in range(1, 1 + TRIES):
        guest.looks = ""
        changed(lender, guest, figures={RECLAIMS: 1 + number})
        rests(lender, guest)
        assert not guest.looks.startswith("10" * (RESTS_AFTER + 1)), guest.looks


def obeys(lender, guest, target):
    """Has a guest have another target, and hear and obey that at once; what it holds stays."""
    before = looks(lender)
    eventually(lambda: looks(lender) > before)
    lender.demand(f"a target {target}")
    guest.tell(target=target, ballooned=target, actual=target)


def test_who_obeys_another_target_is_not_at_rest(still):
    lender, guest = still
    obeys(lender, guest, 5)
    asked, count = asked_in(lender, guest, 6)
    assert asked >= count - 1, (asked, count)


# What stays so, of a guest whose target is 5 pages, and has it asked in each period.
UNREST = {
    "it hasn't heard its target": {"target": 4},
    "it has heard another one": {"target": 6},
    "it has fewer in its balloon": {"ballooned": 4},
    "it has more in its balloon": {"ballooned": 6},
    "its driver isn't ready": {"ready": 0},
}


@pytest.mark.parametrize("changed", UNREST.values(), ids=UNREST)
def test_who_is_asked_in_each_period(still, changed):
    """However long it stays as it is. No page is lent to it beside those that it has."""
    lender, guest = still
    lender.set_budget(ALL - 5), obeys(lender, guest, 5)
    eventually(lambda: lender.guests()["a"]["lent"] == ALL - 5)
    rests(lender, guest)
    guest.tell(**changed)
    for _ in range(RESTS_AFTER // 5 + 2):
        asked, count = asked_in(lender, guest, 5)
        assert asked >= count - 1, (asked, count)


def test_who_tells_no_statistics_is_asked_in_each_period(still):
    """Unlike one at rest that isn't asked."""
    lender, guest = still
    guest.silent = True
    lender.become("a", answers=0)
    asked, count = asked_in(lender, guest, 6)
    assert asked >= count - 1, (asked, count)
    guest.silent = False
    guest.tell()
    rests(lender, guest)
