"""The way out where guests wait for each other, by vb_host_relief of the library: here is when it
is asked, and what is counted of its answers."""

from bigvasta.plan.library import DEFERS, PREFERS, STANDS, Look, Stand

# Milliseconds of a second.
SECOND = 1000


def milliseconds(seconds):
    """Returns them as the library takes them."""
    return round(seconds * SECOND)


class Relief:
    """The relief of a host, whose seats these are. `proceeded` and `passed` say how often a guest
    was to proceed alone, and how often one let others pass."""

    def __init__(self, seats, patience):
        self.seats, self.patience, self.stand = seats, patience, Stand()
        self.proceeded = self.passed = 0

    def look(self, now):
        """Notes since when a host stands still."""
        self.stand = self.seats.stand(self.stand, milliseconds(now))

    def event_at(self, now, missing):
        """Returns the event that is due then, on a host that is short of `missing` pages."""
        look = Look(milliseconds(now), missing, self.patience)
        return self.seats.relief(self.stand, look)

    def due(self, now, until, missing):
        """Returns when something is to be done, before `until`; None where nothing is."""
        stand, patience = self.stand, self.patience * SECOND
        times = (stand.since + STANDS, stand.head_since + patience)
        for at in sorted(max(it / SECOND, now) for it in times):
            if at < until and self.event_at(at, missing).kind:
                return at
        return None

    def relieve(self, now, missing):
        """Does what is due on a host that is short of `missing` pages."""
        event, count = self.event_at(now, missing), self.seats.count
        self.seats.step(event.kind, event.guest)
        self.proceeded += event.kind == PREFERS and event.guest < count
        self.passed += event.kind == DEFERS
