"""What a line tells of a guest beside what it uses: what is free of the rest, which counters of its
kernel have risen, and its terms. Pressure is the library's: it says which guest is pressed."""

from bigvasta.plan import library
from bigvasta.plan.days import MOST_PAGES, GuestTerms
from bigvasta.sizes import PAGE

# The columns of counters, and what each is of a sample.
COUNTERS = {
    "swap_in": "swap_in",
    "swap_out": "swap_out",
    "oom_kills": "oom_kills",
    "alloc_stalls": "stalls",
    "direct_scans": "direct_scan",
    "direct_reclaims": "direct_reclaim",
}

# A balloon that inflates reclaims by itself: with a counter these tell whether it did.
BALLOON = ("ballooned", "target")

# The columns of terms: sizes in bytes, and numbers from these on.
SIZES, NUMBERS = ("least", "most"), {"weight": 1, "priority": 0}

OTHERS = ("free", *BALLOON, *COUNTERS, *SIZES, *NUMBERS)

MILLISECONDS = 1000


def cached_of(line, used, pages):
    """Returns the pages that a guest uses as page cache; None where it doesn't tell what is
    free."""
    if line.lacks("free"):
        return None
    free = line.part("free", pages * PAGE)
    return max(pages - used - line.pages("ballooned") - free // PAGE, 0)


def terms_of(line):
    """Returns the terms of a guest, by the cells that there are."""
    said = {it: min(line.size(it) // PAGE, MOST_PAGES) for it in SIZES if not line.lacks(it)}
    for name, first in NUMBERS.items():
        if line.lacks(name):
            continue
        said[name] = line.size(name, "number")
        if not first <= said[name] <= MOST_PAGES:
            line.refuse(f"{name}: {said[name]} isn't from {first} to {MOST_PAGES}")
    terms = GuestTerms(**said)
    if terms.least > terms.most:
        line.refuse("least is more than most")
    return terms


def counter_of(line, name):
    """Returns a counter of a guest's kernel, where it is told."""
    if line.lacks(name):
        return library.Counter()
    return library.Counter(line.size(name, "number"), 1)


class Stalls:
    """Since what moment, and until when, a guest's own work waits for memory."""

    def __init__(self):
        self.pressure = library.Pressure()

    def hear(self, calls, line, seconds):
        """Notes the counters of a line; returns until when the guest is pressed, in seconds."""
        sample = library.Sample(
            **{its: counter_of(line, name) for name, its in COUNTERS.items()},
            **{it: line.pages(it) for it in BALLOON},
        )
        self.pressure = calls.vb_policy_press(self.pressure, sample, round(seconds * MILLISECONDS))
        return self.pressure.until / MILLISECONDS
