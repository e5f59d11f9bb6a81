"""Which facts of a crate object to which wrong definitions, for weaken-definitions: a line of JSON
for each definition, and which facts object to nothing that no other one does."""

import glob
import json
import os
import re

from definition_files import items, joined, read_lines

# What a declaration begins with that is no fact.
HELPERS = ("abbrev", "unfoldable", "pub", "rec", "record", "data")


def add(file, wrong, facts):
    """Adds a wrong definition and the facts that object to it to a matrix."""
    with open(file, "a", encoding="utf-8") as it:
        it.write(json.dumps([str(wrong), sorted(facts)]) + "\n")


def rows(files):
    """Returns the rows of matrices: for each wrong definition its objecting facts."""
    found = {}
    for path in files:
        found |= {
            (path, wrong): set(facts) for wrong, facts in map(json.loads, read_lines(path)[:-1])
        }
    return {wrong: facts for wrong, facts in found.items() if facts}


def is_named(name, text):
    """Returns whether a text names a fact elsewhere than where a line begins."""
    return re.search(rf"(?<![\w.\n]){re.escape(name)}(?!\w)", text) is not None


def lengths(crate, files):
    """Returns how many lines each fact of these files has, but for those that a proof names."""
    proofs = glob.glob(f"{crate}/proofs/**/*.antt", recursive=True)
    texts = {it: "\n" + "\n".join(read_lines(it)) for it in proofs}
    found = {}
    for path in files:
        lines = read_lines(path)
        for start, end in items(lines):
            name = joined(lines[start:end]).partition(" ")[0]
            fact = f"{os.path.relpath(path, crate)}:{name}"
            is_fact = name not in HELPERS and not any(is_named(name, it) for it in texts.values())
            if fact in found or is_fact:
                found[fact] = found.get(fact, 0) + end - start
    return found


def needless(matrix, lines):
    """Returns facts without which each wrong definition that facts object to still has one that
    does: the longest first."""
    left, gone = {wrong: set(facts) for wrong, facts in matrix.items()}, []
    for fact in sorted(lines, key=lambda it: (-lines[it], it)):
        if all(facts != {fact} for facts in left.values()):
            gone.append(fact)
            for facts in left.values():
                facts.discard(fact)
    return gone
