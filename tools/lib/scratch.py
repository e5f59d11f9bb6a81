"""Makes a program of its own over crates of this repository, in a folder of its own, and counts its
instructions."""

import os
import re
import shutil
import subprocess

ROOT = os.path.realpath(os.path.join(os.path.dirname(__file__), "../.."))


def needed_lines(libraries):
    """Returns the names of these crates and of all below them, and their lines of crates.txt."""
    with open(os.path.join(ROOT, "crates.txt"), encoding="utf-8") as listed:
        lines = [it for it in listed.read().splitlines() if re.match(r"\w", it)]
    names = {re.match(r"\w+", it)[0]: it for it in lines}
    wanted, found = [*libraries], {}
    while wanted:
        name = wanted.pop()
        found[name] = names[name]
        wanted += [
            it for it in names[name].split(":")[1].split() if it in names and it not in found
        ]
    return list(found), list(found.values())


def build(folder, name, source, libraries, numbers):
    """Proves and builds a program of this source over these crates, runs it on these numbers, and
    returns its path."""
    names, lines = needed_lines(libraries)
    crate = os.path.join(folder, "crates", name)
    os.makedirs(os.path.join(crate, "src"))
    for it in names:
        # With what is kept of its proof, and with its time stamps.
        subprocess.run(
            ["cp", "-a", os.path.join(ROOT, "crates", it), os.path.join(folder, "crates")],
            check=True,
        )
    shutil.copy(os.path.join(ROOT, "HANDLES"), folder)
    with open(os.path.join(folder, "crates.txt"), "w", encoding="utf-8") as listed:
        listed.write("\n".join([*lines, f"{name}: {' '.join(libraries)}"]) + "\n")
    with open(os.path.join(crate, "src", "main.rt"), "w", encoding="utf-8") as main:
        main.write(source)
    # The program reads its numbers from a line.
    subprocess.run(
        ["rt", "run"], cwd=crate, input=line_of(numbers), check=True, stdout=subprocess.DEVNULL
    )
    return os.path.join(crate, "out", name)


def line_of(numbers):
    """Returns the line that gives a program its numbers."""
    return " ".join(map(str, numbers)).encode() + b"\n"


def instructions(program, *numbers):
    """Counts what a run with these numbers takes."""
    words = ["valgrind", "--tool=callgrind", "--callgrind-out-file=/dev/null", program]
    ran = subprocess.run(words, input=line_of(numbers), capture_output=True, check=True)
    return int(re.search(rb"Collected : (\d+)", ran.stderr)[1])
