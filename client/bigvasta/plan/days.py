"""Recorded days: what each guest uses from when on. A value that can't be meant is refused, by the
place where it was read."""

import math
import re
from typing import NamedTuple

from bigvasta.sizes import PAGE, whole
from bigvasta.statuses import Usage

# The library counts pages by 32 bits; a guest of the device has fewer than 2^32 of them.
MOST_PAGES = (1 << 32) - 1

# Seconds of a day; and up to which time milliseconds are told apart, as the library counts them.
DAY, MOST_SECONDS = 86400, (1 << 53) // 1000


class Use(NamedTuple):
    """From this moment on a guest uses this many pages, and of the others this many are page cache
    (None: it doesn't tell which of them are free); and whether its own work waits for memory."""

    seconds: float
    pages: int
    cached: object = None
    pressed: bool = False


class GuestTerms(NamedTuple):
    """What an operator has said of a guest, as vb_policy.h has it; `least` and `most` in pages."""

    least: int = 0
    most: int = MOST_PAGES
    weight: int = 1
    priority: int = 0


class Recorded(NamedTuple):
    """A guest of a day: its memory in pages, what it uses from when on, when it goes, and its
    terms."""

    name: str
    pages: int
    uses: tuple
    end: float
    terms: GuestTerms = GuestTerms()

    @property
    def start(self):
        """When it comes."""
        return self.uses[0].seconds


class Day(NamedTuple):
    """A day of a host's guests, in the order in which they come."""

    guests: tuple
    start: float
    end: float


def day_of(guests):
    """Returns the day of guests in any order."""
    ordered = sorted(guests, key=lambda it: it.start)
    return Day(tuple(ordered), ordered[0].start, max(it.end for it in ordered))


def add_use(uses, use):
    """Adds what a guest uses from a moment on, where that is something else than before."""
    if not uses or uses[-1][1:] != use[1:]:
        uses.append(use)


class Line:
    """What was read of a guest at a moment: cells by their names, and where they are."""

    def __init__(self, place, cells):
        self.place, self.cells = place, cells

    def refuse(self, words):
        """Ends the reading."""
        raise Usage(f"{self.place}: {words}")

    def lacks(self, name):
        """Whether there is no such cell, or it is empty."""
        return not (self.cells.get(name) or "").strip()

    def text(self, name):
        """Returns a cell, which isn't empty."""
        text = (self.cells[name] or "").strip()
        if not text:
            self.refuse(f"{name} is empty")
        return text

    def size(self, name, what="number of bytes"):
        """Returns a size in bytes, or another number."""
        text = self.text(name)
        number = whole(text)
        if number is None:
            self.refuse(f"{name}: {text!r} is no {what}")
        return number

    def pages(self, name):
        """Returns a size in pages; 0 where there is none."""
        return 0 if self.lacks(name) else min(self.size(name) // PAGE, MOST_PAGES)

    def part(self, name, whole):
        """Returns a size in bytes, which is at most that of the guest's memory."""
        size = self.size(name)
        if size > whole:
            self.refuse(f"{name} is {size}, above size, which is {whole}")
        return size

    def seconds(self, name="seconds"):
        """Returns seconds, from 0 on: the time, from any one moment on."""
        text = self.text(name)
        # Python takes 1_0 and digits of other scripts for numbers, too.
        is_plain = re.fullmatch(r"[\d.eE+-]+", text, re.ASCII)
        try:
            value = float(text) if is_plain else math.nan
        except ValueError:
            value = math.nan
        if not 0 <= value <= MOST_SECONDS:
            self.refuse(f"{name}: {text!r} is no time in seconds from 0 on")
        return value

    def memory(self):
        """Returns the pages of the guest's memory."""
        size = self.size("size")
        if size == 0:
            self.refuse("size is 0")
        if size % PAGE or size // PAGE > MOST_PAGES:
            self.refuse(f"size: {size} isn't whole pages of {PAGE} bytes, below 2^32 of them")
        return size // PAGE
