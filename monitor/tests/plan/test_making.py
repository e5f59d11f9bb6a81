"""Days that are made by chances that a test has chosen, worked out with a pencil."""

import subprocess

import pytest
from bigvasta.plan import making
from bigvasta.sizes import MIB, PAGE
from planner import words_of
from waiting import PATIENCE

GIB = 1 << 30


class Chosen:
    """What chance says: shares, parts of a range, and how many times a walk's least step a step is.
    After the last ones all are the same; between two changes the mean passes."""

    def __init__(self, shares, parts, steps):
        self.shares, self.parts, self.steps = [*shares], [*parts], [*steps]

    def random(self):
        """Returns the next share."""
        return self.shares.pop(0) if self.shares else 0.5

    def uniform(self, first, last):
        """Returns the next part of a range, at its place."""
        return first + (last - first) * (self.parts.pop(0) if self.parts else 0.5)

    def paretovariate(self, exponent):
        """Returns the length of the next step."""
        assert exponent == 1.3
        return self.steps.pop(0) if self.steps else 10

    def expovariate(self, rate):
        """Returns the mean."""
        return 1 / rate

    def choices(self, values, weights):
        """Chooses 1 GiB."""
        assert dict(zip(values, weights)) == {512: 2, 1024: 3, 2048: 3, 4096: 2}
        return [GIB // MIB]


# Less than 0.3 of the guests idle, and less than 0.15 pass. Of changes of a guest at work, every
# 300.2 seconds, less than 0.3 x 300 of 86400 are reboots; of those of an idle one, every 3600.2,
# less than 0.3 x 3600. A working set grows as often as it shrinks.
WORKS, STAYS, RUNS, GROWS, SHRINKS = 0.3, 0.15, 0.3 * 300 / 86400, 0.49, 0.5
IDLES, PASSES, REBOOTS, RUNS_IDLE = 0.29, 0.14, 0.3 * 300 / 86401, 0.3 * 3600 / 86400

# What chance says, the hours, and rows: when, and in hundredths of a percent of the memory what is
# available and what is free. A working set begins as 28%, the middle of 6 to 50, with nothing in
# the page cache. A step is 10%, and puts as much into the page cache, of which a tenth isn't
# available.
WORKED_OUT = {
    "a guest at work grows and shrinks": (
        ((WORKS, STAYS, RUNS, GROWS, RUNS, SHRINKS), (), ()),
        0.17,
        ((0, 7200, 7200), (300.2, 6100, 5200), (600.4, 7000, 5200), (612, 7900, 5200)),
    ),
    # Of 14400 seconds it is there from the first quarter to the third.
    "an idle guest passes": (
        ((IDLES, PASSES, RUNS_IDLE, GROWS), (0.75, 0.25), ()),
        4,
        ((3600, 7200, 7200), (7200.2, 6100, 5200), (10800, 7000, 5200)),
    ),
    # For 20 seconds, after which 6% are its working set: that grows to 16%.
    "a guest reboots": (
        ((WORKS, STAYS, REBOOTS, GROWS), (), ()),
        0.17,
        ((0, 7200, 7200), (300.2, 10000, 10000), (320.2, 8300, 7400), (612, 9200, 7400)),
    ),
    "a guest doesn't reboot at the end": (
        ((WORKS, STAYS, REBOOTS, GROWS), (), ()),
        320.2 / 3600,
        ((0, 7200, 7200), (300.2, 6100, 5200), (320.2, 7000, 5200)),
    ),
    # A step is no more than a half, and the working set 6 to 90%: it is 78, 90, 40 and 6, and all
    # of the rest is page cache.
    "a guest walks to its ends": (
        (
            (WORKS, STAYS, RUNS, GROWS, RUNS, GROWS, RUNS, SHRINKS, RUNS, SHRINKS),
            (),
            (100, 20, 100, 100, 0),
        ),
        0.34,
        (
            (0, 7200, 7200),
            (300.2, 1980, 0),
            (600.4, 900, 0),
            (900.6, 5400, 0),
            (1200.8, 8460, 0),
            (1224, 8460, 0),
        ),
    ),
}


@pytest.mark.parametrize("name", WORKED_OUT)
def test_worked_out(monkeypatch, name):
    chances, hours, rows = WORKED_OUT[name]
    monkeypatch.setattr(making.random, "Random", lambda _: Chosen(*chances))
    bytes_of = [[it * GIB // 10000 // PAGE * PAGE for it in (10000, *row[1:])] for row in rows]
    assert list(making.make(1, 1, hours))[1:] == [
        f"guest-1,{at:.1f},{size},{available},{free}"
        for (at, *_), (size, available, free) in zip(rows, bytes_of)
    ]


def test_a_day_that_finds_no_room():
    words, environment = words_of("--make", "3")
    with open("/dev/full", "wb") as full:
        ran = subprocess.run(
            words, stdout=full, stderr=subprocess.PIPE, env=environment, timeout=PATIENCE
        )
    said = b"bigvasta: standard output: No space left on device\n"
    assert (ran.returncode, ran.stderr) == (4, said)
