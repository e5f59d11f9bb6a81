"""Days that nobody recorded: guests of some sizes, whose working sets walk with heavy tails, with
page cache, reboots, and idle ones. The same seed makes the same day."""

import random

from bigvasta.plan.days import DAY, Recorded, Use, add_use
from bigvasta.sizes import MIB, PAGE

# A host looks at its guests five times a second: what happens is seen then.
LOOKS = 5

# Sizes in MiB, and how frequent each is among ten guests.
SIZES = {512: 2, 1024: 3, 2048: 3, 4096: 2}

# The shares of the guests that idle, and that come or go amid the day.
IDLE, PASSING = 0.3, 0.15

# Of its memory: what a kernel takes at least, and the most that a working set takes.
LEAST, MOST = 0.06, 0.9

# A step of the walk is Pareto: this exponent, this part of the memory at least, and at most half of
# it.
TAIL, STEP = 1.3, 0.01

# Seconds between two changes of a working set: of a guest at work, and of an idle one. And reboots
# of a guest in a day.
PACE, IDLE_PACE, REBOOTS = 300, 3600, 0.3

# Seconds that a reboot takes; the part of the page cache that can't be let go at once.
REBOOT, DIRTY = 20, 0.1


def look(seconds):
    """Returns the look that is next to a time."""
    return round(seconds * LOOKS) / LOOKS


class Made:
    """A guest whose day is made: the same by its number and the seed, beside any others."""

    def __init__(self, seed, number, hours):
        self.random, self.name = random.Random(f"{seed} {number}"), f"guest-{number}"
        self.size = self.random.choices(list(SIZES), list(SIZES.values()))[0] * MIB
        self.pace = IDLE_PACE if self.random.random() < IDLE else PACE
        self.start, self.end = 0.0, look(hours * 3600)
        if self.random.random() < PASSING:
            self.start, self.end = sorted(look(self.random.uniform(0, self.end)) for _ in range(2))
        self.set, self.cache = self.random.uniform(LEAST, 0.5), 0.0

    def walk(self):
        """Takes a step: the working set grows or shrinks, and what it read stays in the page cache,
        as far as there is room."""
        step = min(self.random.paretovariate(TAIL) * STEP, 0.5)
        self.set += step if self.random.random() < 0.5 else -step
        self.set = min(max(self.set, LEAST), MOST)
        self.cache = min(self.cache + self.random.uniform(0, 2 * step), 1 - self.set)

    def bytes_but(self, cached):
        """Returns the bytes beside its working set and this part of its page cache."""
        return int(max(1 - self.set - cached * self.cache, 0) * self.size) // PAGE * PAGE

    def left(self):
        """Returns the bytes that are free, or page cache that can be let go at once; and those
        that are free."""
        return self.bytes_but(DIRTY), self.bytes_but(1)

    def reboots(self):
        """Returns whether it reboots at this change."""
        return self.random.random() < REBOOTS * self.pace / DAY

    def rows(self):
        """Yields its times, and what is available and free then."""
        at = self.start
        while at < self.end:
            yield at, *self.left()
            at = look(at + self.random.expovariate(1 / self.pace) + 1 / LOOKS)
            if self.reboots() and at + REBOOT < self.end:
                yield at, self.size, self.size
                at, self.set, self.cache = look(at + REBOOT), LEAST, 0.0
            self.walk()
        yield self.end, *self.left()

    def recorded(self):
        """Returns its day, as one reads it of the lines."""
        uses = []
        for at, available, free in self.rows():
            used, cached = (self.size - available) // PAGE, (available - free) // PAGE
            add_use(uses, Use(at, used, cached))
        return Recorded(self.name, self.size // PAGE, tuple(uses), self.end)


def guests(count, seed, hours):
    """Yields guests by their numbers: those of this number whose day isn't empty."""
    for number in range(1, count + 1):
        guest = Made(seed, number, hours)
        if guest.start < guest.end:
            yield number, guest


def make(count, seed, hours):
    """Yields the lines of a day of this number of guests, as a recording has them."""
    rows = [
        (at, guest.name, guest.size, *left)
        for _, guest in guests(count, seed, hours)
        for at, *left in guest.rows()
    ]
    rows.sort(key=lambda it: it[0])
    yield "guest,seconds,size,available,free"
    for at, name, size, available, free in rows:
        yield f"{name},{at:.1f},{size},{available},{free}"
