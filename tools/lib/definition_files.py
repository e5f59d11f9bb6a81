"""Reads a crate's definitions for weaken-definitions, and names what is planted into them."""

import dataclasses
import glob
import os
import re

# How a declaration begins.
DECLARES = re.compile(r"(?:(?:abbrev|unfoldable|pub|rec) )*(record |data )?(?:pub )?(\S+)")


@dataclasses.dataclass
class Planted:
    """A definition that says less, or something else: of which relation, which field of a record,
    what of it, from which line on, and its file with it."""

    path: str
    name: str
    field: str
    what: str
    lines: list
    first: int
    text: str

    def __str__(self):
        return f"{os.path.basename(self.path)}:{self.first + 1} {self.name}: {self.what}"


def read_lines(path):
    """Returns the lines of a file."""
    with open(path, encoding="utf-8") as file:
        return file.read().split("\n")


def definition_files(crate):
    """Returns the files of a crate's definitions, but for those that are made of its sources."""
    found = glob.glob(f"{crate}/specs/**/*.antt", recursive=True)
    return sorted(it for it in found if "/declared/" not in it and not it.endswith("/Lib.antt"))


def items(lines):
    """Returns where each item of a file begins and ends: a line at the margin, with the indented
    ones after it."""
    starts = [
        n
        for n, line in enumerate(lines)
        if line and not line[0].isspace() and not line.startswith(("--", "use ", "mod "))
    ]
    found = []
    for start in starts:
        end = start + 1
        while end < len(lines) and lines[end][:1].isspace() and lines[end].strip():
            end += 1
        found.append((start, end))
    return found


def joined(lines):
    """Returns lines as one."""
    return " ".join(it.strip() for it in lines).strip()


def at_top(text, sign):
    """Returns where a sign is in a text outside all brackets."""
    depth, found = 0, []
    for place, letter in enumerate(text):
        depth += (letter in "([{") - (letter in ")]}")
        if letter == sign and depth == 0:
            found.append(place)
    return found
