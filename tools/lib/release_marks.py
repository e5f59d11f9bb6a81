"""What may be released: a program that the kit's mark shows as proved of a tree's sources, and what
the gate said of them."""

import functools
import hashlib
import os
import re

import rt_kit
from linux_packages import Fault, last_line

PROGRAM = "crates/vb_sim/out/vb_sim"

# Characters of a sum in the kit's mark, which has that of the sources first, and then that of the
# program.
SUM = 64


def sum_of_sources(root):
    """Returns the kit's sum of all that vb_sim is made of, in the tree at this root."""
    rt = rt_kit.load("release")
    rt.rtlib.Crate.stamp = functools.cache(rt.rtlib.Crate.stamp)
    crate = rt.rtlib.Crate(f"{root}/crates/vb_sim", root, {})
    rt.read_files(crate)
    return crate.stamp()


def sum_of(path):
    """Returns a file's sum, as the kit writes it."""
    with open(path, "rb") as file:
        return hashlib.sha256(file.read()).hexdigest()


def simulator(root):
    """Returns the path of vb_sim, where the kit's mark beside it is of these bytes, and of the
    tree's sources. `rt run` leaves the mark where it has proved and built the program; `rt ci`
    leaves none."""
    program = f"{root}/{PROGRAM}"
    how = "tools/prove-sim proves and builds it"
    if not os.path.isfile(program):
        raise Fault(f"{PROGRAM} isn't there: {how}")
    try:
        with open(f"{program}.stamp", encoding="ascii") as file:
            mark = file.read()
    except (OSError, ValueError):
        raise Fault(f"{PROGRAM} has no mark of the kit's: {how}") from None
    if mark[SUM:] != sum_of(program):
        raise Fault(f"{PROGRAM} isn't the program that the kit's mark is of: {how}")
    if mark[:SUM] != sum_of_sources(root):
        raise Fault(f"{PROGRAM} was proved of other sources than those of this tree: {how}")
    return program


def gate_of(path, names):
    """Returns the last line of a file with what `rt ci` printed, which has to be that of a gate
    that passed for a tree of these files: each crate counts, and each must-fail edit."""
    try:
        with open(path, encoding="utf-8", errors="replace") as file:
            line = last_line(file.read())
    except OSError as error:
        raise Fault(f"{path}: {error.strerror}") from error
    found = re.fullmatch(r"(\d+) passed, 0 failed", line)
    if not found:
        raise Fault(f"{path} doesn't end with what a passed gate says: {line}")
    crates = {
        it.split("/")[1] for it in names if re.fullmatch(r"crates/\w+/src/(?:lib|main)\.rt", it)
    }
    edits = [it for it in names if re.fullmatch(r"crates/\w+/must-fail/[^/]+\.edit", it)]
    if int(found[1]) != len(crates) + len(edits):
        raise Fault(
            f"{path} is of another tree's gate: {line}, and there are {len(crates)} crates and "
            f"{len(edits)} edits"
        )
    return line
