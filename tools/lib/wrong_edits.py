"""Wrong edits of the two shims, which wrong_edits.toml lists, and how they are planted."""

import os
import re
import tomllib
from typing import NamedTuple


class Edit(NamedTuple):
    """A file of monitor, a text of it, and what replaces that."""

    file: str
    old: str
    new: str


class Wrong(NamedTuple):
    """A wrong shim: its name, the file that it is about, and its edits."""

    name: str
    file: str
    edits: tuple


def listed():
    """Returns the wrong shims of the list: one with a single edit has that among its own keys."""
    path = os.path.join(os.path.dirname(os.path.realpath(__file__)), "wrong_edits.toml")
    with open(path, "rb") as file:
        rows = tomllib.load(file)["wrong"]
    return [
        Wrong(
            row["name"],
            row["file"],
            tuple(
                Edit(it.get("file", row["file"]), it["old"], it["new"])
                for it in row.get("edits", [row])
            ),
        )
        for row in rows
    ]


WRONG = listed()


def pattern_of(text):
    """Returns what finds a text whatever the spaces between its words and signs are."""
    parts = re.findall(r"\w+|[^\w\s]", text)
    apart = [one[-1].isidentifier() and two[0].isidentifier() for one, two in zip(parts, parts[1:])]
    spaces = ["", *(r"\s+" if it else r"\s*" for it in apart)]
    return re.compile("".join(space + re.escape(part) for space, part in zip(spaces, parts)))


def planted(text, old, new):
    """Returns a source with an edit; None where it hasn't just one place for it."""
    found = list(pattern_of(old).finditer(text))
    if len(found) != 1:
        return None
    return text[: found[0].start()] + new + text[found[0].end() :]
