"""The replay of a day on one host, from one moment to the next at which a guest's use changes:
between those nothing happens."""

import math
from typing import NamedTuple

import numpy

from bigvasta.plan.days import DAY
from bigvasta.plan.lender import Lender
from bigvasta.sizes import MIB, PAGE


class Answer(NamedTuple):
    """What a replay under a budget says. Sizes are in pages, times in seconds."""

    budget: int
    promised: int  # the sizes of the guests that were there at once, at most
    guests: int
    present: float  # how long guests were there, of all guests together
    waited: float  # how long asks waited of that
    waits: tuple  # of each ask, how long it waited: 0 where it was granted at once
    worst_guest: str  # who waited longest in all, and how long
    worst_waited: float
    shorts: int  # how often the host became short
    short: float  # how long it was short
    lacked: int  # by how much it was short at worst
    moved: int  # into balloons and out of them
    decisions: int  # how often targets were decided
    overdrawn: int  # pages that were lent beyond the budget at worst
    overdrawn_seconds: float  # until they had come back, in all
    proceeded: int  # how often a guest was to proceed alone on a short host
    passed: int  # how often one that restarts or comes let others pass
    above: int = 0  # lent beyond budget and overdraft as the day begins: no host lends that

    def share(self):
        """Returns which part of the time asks waited."""
        return self.waited / self.present if self.present else 0.0

    def wait_a_day(self):
        """Returns the seconds that a guest waited in a day, of all guests together."""
        return self.share() * DAY

    def promise(self):
        """Returns how many times the budget is promised."""
        return self.promised / self.budget

    def label(self):
        """Returns how a picture names it."""
        return f"budget {-(-self.budget * PAGE // MIB)} MiB"

    def quantile(self, share):
        """Returns how long this share of the asks waited at most (nearest rank)."""
        return (
            float(numpy.quantile(self.waits, share, method="inverted_cdf")) if self.waits else 0.0
        )


class Excess:
    """How often, how long and by how many pages at worst something is too much."""

    def __init__(self):
        self.times, self.seconds, self.worst, self.is_now = 0, 0.0, 0, False

    def see(self, pages):
        """Notes how it is at a moment that has come to rest."""
        self.times += pages > 0 and not self.is_now
        self.is_now, self.worst = pages > 0, max(self.worst, pages)

    def pass_time(self, seconds):
        """Counts the time until the next moment."""
        self.seconds += seconds if self.is_now else 0


class Replayed:
    """A host whose day is replayed: what its guests can't spare, and what is lent beyond its
    budget."""

    def __init__(self, lender):
        self.lender, self.short, self.overdrawn = lender, Excess(), Excess()

    def settle(self):
        """Sees the host once it has come to rest."""
        self.lender.settle()
        self.see()

    def see(self):
        """Notes how the host is."""
        self.short.see(self.lender.missing)
        self.overdrawn.see(self.lender.seats.overdrawn())

    def go_to(self, at):
        """Time passes until a moment; nothing else happens."""
        for it in (self.short, self.overdrawn):
            it.pass_time(at - self.lender.now)
        self.lender.now = at

    def pass_until(self, at):
        """Time passes until a moment, and the host is relieved meanwhile."""
        while (due := self.lender.due(at)) is not None:
            self.go_to(due)
            self.lender.relieve()
            self.see()
        self.go_to(at)


def events_of(day):
    """Returns what happens at each moment: guests that go, that come, and what others use from then
    on."""
    events = {}
    for number, guest in enumerate(day.guests):
        first, *others = guest.uses
        come = (1, number, first)
        uses = [(it.seconds, (2, number, it)) for it in others if it.seconds < guest.end]
        for at, event in ((guest.start, come), *uses, (guest.end, (0, number, None))):
            events.setdefault(at, []).append(event)
    return {at: sorted(events[at], key=lambda it: it[:2]) for at in sorted(events)}


def happen(lender, events):
    """Tells the lender what happens at a moment: who goes first, so that there is room."""
    for kind, guest, use in events:
        if kind == 0:
            lender.leave(guest)
        elif kind == 1:
            lender.arrive(guest, use)
        else:
            lender.use(guest, use)


def promised_by(day):
    """Returns the most pages that guests have together which are there at once."""
    steps = sorted(
        (at, sign * it.pages) for it in day.guests for at, sign in ((it.start, 1), (it.end, -1))
    )
    now = most = 0
    for _, pages in steps:
        now += pages
        most = max(most, now)
    return most


def replay(library, day, terms, looks=()):
    """Returns what a day says under these terms. At `looks` nothing happens: a host that looks
    there decides the same."""
    lender, events = Lender(library, day.guests, terms), events_of(day)
    replayed = Replayed(lender)
    lender.now = day.start
    lender.begin([(guest, use) for kind, guest, use in events.get(day.start, ()) if kind == 1])
    above = None
    for at in sorted({*events, *(it for it in looks if day.start <= it <= day.end)}):
        replayed.pass_until(at)
        if at > day.start:
            happen(lender, events.get(at, ()))
        replayed.settle()
        above = lender.seats.above() if above is None else above
    short, overdrawn = replayed.short, replayed.overdrawn
    worst = max(range(len(day.guests)), key=lender.waited.__getitem__)
    return Answer(
        terms.frames,
        promised_by(day),
        len(day.guests),
        math.fsum(it.end - it.start for it in day.guests),
        math.fsum(lender.waits),
        tuple(lender.waits),
        day.guests[worst].name,
        lender.waited[worst],
        short.times,
        short.seconds,
        short.worst,
        lender.moved,
        lender.decisions,
        overdrawn.worst,
        overdrawn.seconds,
        lender.relief.proceeded,
        lender.relief.passed,
        above,
    )
