"""Which guest comes to which host of a fleet: the first host that may still promise it all of its
memory takes it.

What a host has promised is a lender of its own, on as many frames as may be promised: a guest of it
has all of its memory lent for as long as it is there. So the library's calls say whether there is a
place and room."""

from typing import NamedTuple

import numpy

from bigvasta.plan.seats import Seats

# What a host refuses that has refused nothing: more pages than any guest has.
NOTHING_YET = 1 << 32


class Stay(NamedTuple):
    """A guest that wants a host: its memory in pages, when it comes, and when it goes."""

    pages: int
    start: float
    end: float


class Promises:
    """What the hosts of a fleet have promised."""

    def __init__(self, library, hosts, frames, places):
        self.hosts = [Seats(library, places, frames) for _ in range(hosts)]
        self.vacant = [list(range(places)) for _ in range(hosts)]
        # The smallest guest that a host has refused since one went from it: it needn't be asked for
        # that one or a larger one.
        self.refused = numpy.full(hosts, NOTHING_YET)

    def ask(self, host, pages):
        """Returns the place that a guest has on a host now; None where it has none."""
        if not self.vacant[host]:
            return None
        place = self.vacant[host][-1]
        self.hosts[host].arrive(place, pages)
        if self.hosts[host].lent(place) < pages:
            self.hosts[host].arrive(place, 0)
            return None
        return self.vacant[host].pop()

    def come(self, pages):
        """Returns the first host that takes a guest, and its place there; None where no host
        does."""
        while True:
            host = int(numpy.argmax(self.refused > pages))
            if self.refused[host] <= pages:
                return None
            place = self.ask(host, pages)
            if place is not None:
                return host, place
            self.refused[host] = pages if self.vacant[host] else 0

    def go(self, host, place):
        """A guest goes from a host."""
        self.hosts[host].arrive(place, 0)
        self.vacant[host].append(place)
        self.refused[host] = NOTHING_YET


def place(promises, stays):
    """Returns the numbers of the guests of each host, and of those that find none. At a moment
    guests go before others come."""
    hosts, away, here = {}, [], {}
    events = [
        (at, comes, number)
        for number, it in stays.items()
        for at, comes in ((it.start, 1), (it.end, 0))
    ]
    for _, comes, number in sorted(events):
        if not comes:
            if number in here:
                promises.go(*here.pop(number))
            continue
        found = promises.come(stays[number].pages)
        if found is None:
            away.append(number)
        else:
            here[number] = found
            hosts.setdefault(found[0], []).append(number)
    return hosts, away
