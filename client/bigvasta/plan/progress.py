"""How far a long plan is, on standard error: a line that a terminal rewrites; elsewhere a line for
each tenth."""

import time

# Seconds between two writings of a terminal's line; and into how many parts the plan is divided
# elsewhere.
EVERY, PARTS = 0.2, 10


class Progress:
    """Counts hosts whose days were replayed."""

    def __init__(self, total, out, clock=time.monotonic):
        self.total, self.out, self.clock, self.done = total, out, clock, 0
        self.begin = self.shown = clock()
        self.rewrites = out.isatty()

    def words(self, now):
        """Returns what is said."""
        passed = now - self.begin
        left = passed / self.done * (self.total - self.done)
        return (
            f"replayed {self.done} of {self.total} hosts, {100 * self.done // self.total}%, "
            f"{passed:.0f} s; about {left:.0f} s to go"
        )

    def is_due(self, now):
        """Returns whether something is said now."""
        if self.done == self.total:
            return True
        if self.rewrites:
            return now - self.shown >= EVERY
        return self.done * PARTS // self.total > (self.done - 1) * PARTS // self.total

    def step(self):
        """Another one is done."""
        self.done += 1
        now = self.clock()
        if self.is_due(now):
            self.shown = now
            end = "\n" if self.done == self.total or not self.rewrites else ""
            self.out.write(("\r\033[K" if self.rewrites else "") + self.words(now) + end)
            self.out.flush()
