"""Sizes of memory: as an operator writes them, and as columns show them."""

import re

from bigvasta.statuses import Usage

PAGE, MIB = 4096, 1 << 20
MOST_SIZE = ((1 << 32) - 2) * PAGE
UNITS = {"K": 1 << 10, "M": 1 << 20, "G": 1 << 30, "T": 1 << 40}


def whole(text):
    """Returns the whole number that a text is, of 100 digits at most; else None."""
    return int(text) if re.fullmatch(r"\d{1,100}", text, re.ASCII) else None


def parse_size(text, name="size"):
    """Returns the bytes of a size such as 480M: a number with K, M, G or T, whole pages; or 0."""
    found = re.fullmatch(r"(\d{1,12})([KMGT])(?:iB)?", text, re.ASCII)
    size = int(found[1]) * UNITS[found[2]] if found else 0 if text == "0" else -1
    if not 0 <= size <= MOST_SIZE or size % PAGE:
        raise Usage(
            f"{name}: {text!r} is no size: a number with K, M, G or T, in pages of 4K, such as 480M"
        )
    return size


def pages_of(text, name):
    """Returns a size in pages: at least one."""
    pages = parse_size(text, name) // PAGE
    if pages == 0:
        raise Usage(f"{name}: {text!r} isn't from 4K on")
    return pages


def mebibytes(size):
    """Returns bytes as a column shows them: whole MiB, or with a digit after the point below
    ten."""
    value = size / MIB
    return f"{value:.1f}" if 0 < value < 9.95 else f"{value:.0f}"


def seconds(value):
    """Returns seconds as a column shows them."""
    return (
        f"{value:.1f} s"
        if value < 100
        else f"{value / 60:.0f} min"
        if value < 6000
        else f"{value / 3600:.0f} h"
    )
