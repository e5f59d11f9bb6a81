"""A host's lender, by vb_host_step of vb_host.h, and the processes of its guests. What is lent, and
who is granted, the library says; a process does what it is told to here, and reports each time."""

import numpy

from bigvasta.plan.library import (
    ARRIVES,
    BUDGET,
    HEARS,
    LINE_ARRIVALS,
    LINE_DEFLATES,
    OK,
    TAKES_OVER,
    WANTS,
    Event,
    Host,
    Report,
    Seat,
)
from bigvasta.statuses import Unclear


class Seats:
    """The seats of a host, and what each guest's process reports; some of their columns are arrays,
    too."""

    def __init__(self, library, count, frames, overdraft=0):
        self.library, self.count, self.event = library, count, Event()
        self.host = Host(frames, overdraft)
        self.seats, self.reports = (Seat * count)(), (Report * count)()
        seats, told = (numpy.ndarray(count, it._type_, it) for it in (self.seats, self.reports))
        self.wanted, self.target, self.number, self.last_granted = (
            seats[it] for it in ("wanted", "target", "target_number", "granted")
        )
        self.ballooned, self.read_number, self.held, self.deflates = (
            told[it] for it in ("ballooned", "target_number", "held", "deflates")
        )

    def step(self, kind, guest=0):
        """Has the event happen, whose other fields are set."""
        self.event.kind, self.event.guest = kind, guest
        code = self.library.vb_host_step(self.host, self.seats, self.count, self.event)
        if code != OK:
            raise Unclear(f"plan: the library refuses event {kind} of guest {guest} by {code}")

    # ---- what the lender says

    def owed(self):
        """Returns how many frames are lent to all."""
        return self.library.vb_host_owed(self.seats, self.count)

    def lent(self, guest):
        """Returns how many frames are lent to a guest."""
        return self.library.vb_seat_lent(self.seats[guest])

    def asked(self, guest):
        """Returns how many more it waits for."""
        return self.library.vb_seat_asked(self.seats[guest])

    def room(self):
        """Returns how many frames of the budget are neither lent nor waited for."""
        return self.library.vb_host_room(self.host, self.seats, self.count)

    def overdrawn(self):
        """Returns how many frames of the overdraft are lent."""
        return min(max(self.owed() - self.host.frames, 0), self.host.overdraft)

    def above(self):
        """Returns how many frames are lent beyond the budget and all of its overdraft."""
        return max(self.owed() - self.host.frames - self.host.overdraft, 0)

    def overdraft(self):
        """Returns how many more of it may be."""
        return self.host.overdraft - self.overdrawn()

    def first(self):
        """Returns the guest that waits first; None where no guest waits."""
        place = self.library.vb_host_first(self.seats, self.count)
        return place if place < self.count else None

    def stand(self, stand, now):
        """Returns since when the host stands still, by what was so before."""
        return self.library.vb_host_stand(self.seats, self.count, stand, now)

    def relief(self, stand, look):
        """Returns the event by which a host is helped then."""
        return self.library.vb_host_relief(self.host, self.seats, self.count, stand, look)

    # ---- what the host wants

    def budget(self, frames):
        """The host has this budget from now on."""
        self.event.frames = frames
        self.step(BUDGET)

    def want(self, guest, pages):
        """These are wanted in a guest's balloon."""
        self.event.pages = pages
        self.step(WANTS, guest)

    # ---- what a process does

    def tell(self, guest):
        """It reports what it is now."""
        self.event.report = self.reports[guest]
        self.step(HEARS, guest)

    def arrive(self, guest, pages):
        """A guest of this many pages is at this place, and waits for all of them; of none: it has
        gone."""
        self.event.pages, self.event.ballooned = pages, 0
        self.step(ARRIVES, guest)
        self.reports[guest] = Report(ballooned=pages, target=pages, read_target=pages)
        if pages > 0:
            self.hold(guest, pages, LINE_ARRIVALS)

    def take_over(self, guest, pages, ballooned):
        """A guest is at this place already, with this much in its balloon, as its target says."""
        self.event.pages = pages
        self.reports[guest] = self.event.report = Report(
            ballooned=ballooned, target=ballooned, read_target=ballooned
        )
        self.step(TAKES_OVER, guest)

    def hold(self, guest, pages, line=LINE_DEFLATES):
        """It holds back a deflate of these pages, in place of any that it holds."""
        report = self.reports[guest]
        report.held, report.line, report.deflates = pages, line, report.deflates + 1
        self.tell(guest)

    def give(self, guest, pages):
        """Pages join its balloon."""
        self.reports[guest].ballooned += pages
        self.tell(guest)

    def read(self, guest):
        """It receives its last target, and its driver reads that."""
        report, seat = self.reports[guest], self.seats[guest]
        report.target = report.read_target = seat.target
        report.target_number = seat.target_number
        self.tell(guest)

    def granted(self):
        """Returns the guests whose deflates were granted, and still are held back."""
        granted = (self.held > 0) & (self.deflates == self.last_granted)
        return granted.nonzero()[0].tolist()

    def take(self, guest):
        """Its deflate, which was granted, leaves its balloon; returns of how many pages it was."""
        report = self.reports[guest]
        pages, report.held = report.held, 0
        report.ballooned -= pages
        self.tell(guest)
        return pages
