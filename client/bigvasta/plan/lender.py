"""A host that lends, at one moment after another: its guests have processes of seats.py, which do
at once what they are told and need. The library's calls decide who is granted, and what each guest
is asked for."""

import ctypes
from typing import NamedTuple

import numpy

from bigvasta.plan.library import (
    CONTACT_AWAY,
    CONTACT_HEARD,
    CONTACT_STARTS,
    LINE_RESETS,
    UNTOLD,
    Figures,
    PolicyBudget,
    PolicyRoom,
)
from bigvasta.plan.relief import Relief
from bigvasta.plan.seats import Seats
from bigvasta.statuses import Unclear

# As a host has it: this part of the floor is too little to change a target for; and in percent, who
# has less than this of its part gets its part.
SLACK_PART, BAND = 8, 35

MOST_FRAMES = (1 << 32) - 1

# Seconds of patience, as a host has them.
PATIENCE = 10

# In how many rounds a moment has to come to rest: a guest acts a few times at most.
MOST_ROUNDS = 1000


class Terms(NamedTuple):
    """What a replay tries: the budget and the floor, in pages, and the reserve, in percent of each
    guest's pages; how many pages may be lent beyond the budget, and for how many seconds who
    restarts or comes keeps others waiting."""

    frames: int
    floor: int = 0
    reserve: int = 0
    overdraft: int = 0
    patience: int = PATIENCE

    def budget(self):
        """Returns them as the library takes them."""
        return PolicyBudget(self.frames, self.floor, self.floor // SLACK_PART, self.reserve, BAND)


class Lender:
    """A host and its guests. `waits` has how long each ask waited that has ended, in seconds,
    `waited` the same of each guest together."""

    def __init__(self, library, guests, terms):
        count = len(guests)
        self.library, self.guests, self.terms, self.count, self.now = (
            library,
            guests,
            terms,
            count,
            0.0,
        )
        self.seats = Seats(library, count, terms.frames, terms.overdraft)
        self.relief = Relief(self.seats, terms.patience)
        self.budget, self.rooms, self.figures, self.targets = (
            terms.budget(),
            (PolicyRoom * count)(),
            (Figures * count)(*(Figures(strict=1, **it.terms._asdict()) for it in guests)),
            (ctypes.c_uint32 * count)(),
        )
        figures = numpy.ndarray(count, Figures, self.figures)
        self.so_far, self.firsts, self.pressed = (
            figures[it] for it in ("target", "first", "pressed")
        )
        self.decided = numpy.ndarray(count, numpy.uint32, self.targets)
        # How many pages each has, and doesn't use; and how many of these its page cache takes.
        self.unused, self.cached = (
            numpy.array([it.pages for it in guests], numpy.int64),
            [None] * count,
        )
        self.runs, self.since = numpy.zeros(count, bool), [None] * count
        self.waits, self.waited, self.moved, self.decisions, self.missing = (
            [],
            [0.0] * count,
            0,
            0,
            0,
        )
        # Whether there is something new to decide on, and whether targets so far don't count.
        self.news, self.from_scratch = True, True

    # ---- what the host knows of a guest

    def contact(self, guest):
        """Returns whether its statistics are at hand."""
        if self.runs[guest]:
            return CONTACT_HEARD
        return CONTACT_STARTS if self.seats.seats[guest].pages else CONTACT_AWAY

    def figure(self, guest):
        """Says again what is known of a guest: after each change of what it uses, or of its seat.
        Of what its balloon leaves it, its page cache has what it has no other use for."""
        seats, its = self.seats, self.figures[guest]
        seat, cached = seats.seats[guest], self.cached[guest]
        its.pages, its.ballooned = seat.pages, seat.ballooned
        its.ballooned_then = seat.ballooned
        its.available = max(int(self.unused[guest]) - seat.ballooned, 0)
        its.free = UNTOLD if cached is None else max(its.available - cached, 0)
        its.lent, its.asked = seats.lent(guest), seats.asked(guest)
        its.contact = self.contact(guest)
        self.news = True

    # ---- what happens to a guest

    def note(self, guest, use):
        """A guest uses this from now on."""
        self.unused[guest] = self.guests[guest].pages - use.pages
        self.cached[guest], self.pressed[guest] = use.cached, use.pressed

    def arrive(self, guest, use):
        """A guest comes, and waits for all of its memory."""
        self.since[guest] = self.now
        self.note(guest, use)
        self.seats.arrive(guest, self.guests[guest].pages)
        self.from_scratch |= self.seats.lent(guest) > 0
        self.figure(guest)

    def begin(self, guests):
        """These guests are here when the day begins: let in before the budget holds, so that none
        of them waits for that."""
        self.seats.budget(MOST_FRAMES)
        for guest, use in guests:
            self.arrive(guest, use)
        self.take_all()
        self.seats.budget(self.terms.frames)
        self.waits.clear()
        self.moved, self.waited = 0, [0.0] * self.count

    def leave(self, guest):
        """A guest goes, and its memory with it; what it waited for has ended."""
        self.seats.arrive(guest, 0)
        self.end_wait(guest)
        self.runs[guest], self.from_scratch = False, True
        self.figure(guest)

    def use(self, guest, use):
        """A guest uses this now. One that uses no page is reset: its balloon is to be empty."""
        self.note(guest, use)
        ballooned = self.seats.reports[guest].ballooned
        if use.pages == 0 and self.runs[guest] and ballooned > 0:
            self.ask(guest, ballooned, LINE_RESETS)
        self.figure(guest)

    # ---- waits

    def ask(self, guest, *words):
        """A guest holds a deflate back: the wait lasts until it asks for nothing more."""
        if self.since[guest] is None:
            self.since[guest] = self.now
        self.seats.hold(guest, *words)

    def end_wait(self, guest):
        """A guest asks for nothing more."""
        if self.since[guest] is not None:
            self.waits.append(self.now - self.since[guest])
            self.waited[guest] += self.waits[-1]
        self.since[guest] = None

    # ---- a moment

    def settle(self):
        """Does what follows of what has happened, until nothing follows any longer."""
        self.news = True
        for _ in range(MOST_ROUNDS):
            while self.take_all() or self.ask_all():
                pass
            self.decide()
            movers = self.movers()
            for it in movers:
                self.act(it)
            if not movers:
                self.relief.look(self.now)
                return
        raise Unclear("plan: the guests of a moment don't come to rest")

    def due(self, until):
        """Returns when a host that stands still is relieved next, before something else happens;
        None where it isn't."""
        return self.relief.due(self.now, until, self.missing)

    def relieve(self):
        """Relieves the host, and does what follows of that."""
        self.relief.relieve(self.now, self.missing)
        self.settle()

    def ask_library(self):
        """Has the library decide the targets; returns its answer. Those so far don't count where
        guests have come or gone."""
        first, count = self.seats.first(), self.count
        self.so_far[:] = 0 if self.from_scratch else self.seats.wanted
        self.firsts[:] = 0
        if first is not None:
            self.firsts[first] = 1
        return self.library.vb_policy_decide(
            self.budget, self.figures, count, self.rooms, count, self.targets, count
        )

    def decide(self):
        """Has targets be decided where there is something new. Those that rise are told first."""
        if not self.news:
            return
        missing, wanted = self.ask_library().missing, self.seats.wanted
        changed = (wanted != self.decided).nonzero()[0].tolist()
        self.decisions += bool(self.from_scratch or changed or missing != self.missing)
        self.missing, self.news, self.from_scratch = missing, False, False
        for guest in sorted(changed, key=lambda it: self.decided[it] < wanted[it]):
            self.seats.want(guest, self.targets[guest])

    def movers(self):
        """Returns the guests that run, wait for nothing, and have another target than they read, or
        not what that says in their balloons."""
        seats = self.seats
        acts = (seats.read_number != seats.number) | (seats.ballooned != seats.target)
        return (acts & self.runs & (seats.held == 0)).nonzero()[0].tolist()

    def act(self, guest):
        """A guest's driver reads its target. It gives pages up to that, or takes what is above
        that, which is lent to it already."""
        self.seats.read(guest)
        report = self.seats.reports[guest]
        above = report.ballooned - report.target
        if above < 0:
            self.moved -= above
            self.seats.give(guest, -above)
        elif above > 0:
            self.ask(guest, above)
        self.figure(guest)

    def ask_all(self):
        """Guests that use more than they have, and wait for nothing, ask for that: first for what
        there is room for, then for no more at once than may be overdrawn. Returns whether there are
        any."""
        lack = self.runs & (self.seats.held == 0) & (self.seats.ballooned > self.unused)
        lacking = lack.nonzero()[0].tolist()
        for guest in lacking:
            lacks = self.seats.reports[guest].ballooned - int(self.unused[guest])
            parts = self.seats.room(), self.seats.overdraft()
            self.ask(guest, min(lacks, next(filter(None, parts), lacks)))
            self.figure(guest)
        return bool(lacking)

    def take_all(self):
        """Guests take what they were granted, and newcomers start; returns whether any does."""
        granted = self.seats.granted()
        for guest in granted:
            pages = self.seats.take(guest)
            self.moved += pages if self.runs[guest] else 0
            self.runs[guest] = True
            self.end_wait(guest)
            self.figure(guest)
        return bool(granted)
