"""Steps of which each is a command that passes or fails: all that needs no network and no root, and
the part of it that no load fails."""

import os
import re
import subprocess
import sys
import time
from typing import NamedTuple

from debian_packages import install, missing
from suites import DAEMONS, SUITES, packages_of

ROOT = os.path.realpath(os.path.join(os.path.dirname(__file__), "../.."))
LOGS = os.path.join(ROOT, "out", "tests")

# Seconds after which a step hangs, and how many lines of one that failed are repeated.
LIMIT, LINES = 7200, 40

SHIMS = "make gcc g++ clang libc6-dev python3 rustc cargo librust-vm-memory-dev"
LINT = "clang-tidy cppcheck"
# The days and the notices of the quick part.
FEWER = ("DAYS=100000", "NOTICES=100000")


class Step(NamedTuple):
    """A command, and the packages that it wants."""

    name: str
    words: tuple
    packages: tuple = ()


def suite(name, *words):
    """Returns the step of a suite."""
    return Step(name, ("tools/test", name, *words, "-rs"), tuple(packages_of(name, all_of_it=True)))


def monitor(name, *words):
    """Returns a step of monitor's Makefile: the programs are built beside each other before they
    run."""
    build = " ".join(
        (
            "make",
            "-s",
            "-C",
            "monitor",
            f"-j{os.cpu_count()}",
            "all",
            *(it for it in words if it.startswith("LIB=")),
        )
    )
    return Step(
        name,
        ("sh", "-c", f"{build} && {' '.join(('make', '-C', 'monitor', *words))}"),
        tuple(SHIMS.split()),
    )


CHECKS = (
    Step("check-sources", ("tools/check-sources",), ("git", "clang-format", "black", "pyflakes3")),
    Step("headline", ("tools/headline", "--check")),
    Step("draw-crates", ("tools/draw-crates", "--check")),
)
OVER_REFERENCE = (
    *("headers", "fuzz-sources", "c-test", "checked-test", "rust-test", "rust-c-test"),
    "LIB=reference",
)
QUICK = (
    *CHECKS,
    monitor("monitor over reference", *OVER_REFERENCE, *FEWER),
    *(
        suite(it, *(("--reference",) if SUITES[it].over_library else ()))
        for it in ("vhost-user", "control", "tools")
    ),
)
# These want the network, or root, or some of their tests a Linux that is fetched.
ELSEWHERE = ("host-runs", "fleet", "machine", "linux")
ALL = (
    *CHECKS,
    monitor("monitor over reference", *OVER_REFERENCE, "bench"),
    monitor("monitor", "test"),
    Step("lint", ("make", "-s", "-C", "monitor", "lint"), (*LINT.split(), *DAEMONS.split())),
    *(suite(it) for it in SUITES if it not in ELSEWHERE),
)


def skipped(said):
    """Returns what a suite says of the tests that it skips: how many, and why."""
    return [
        f"{count} skipped: {why}"
        for count, why in re.findall(r"(?m)^SKIPPED \[(\d+)\] [^:]+:\d+: (.*)$", said)
    ]


def run(step):
    """Runs a step and prints a line about it; returns whether it passed, and the last lines of what
    it said."""
    path, begun = os.path.join(LOGS, f"{step.name.replace(' ', '-')}.log"), time.monotonic()
    with open(path, "w", encoding="utf-8") as log:
        try:
            passed = (
                subprocess.run(
                    step.words,
                    cwd=ROOT,
                    stdin=subprocess.DEVNULL,
                    stdout=log,
                    stderr=subprocess.STDOUT,
                    timeout=LIMIT,
                ).returncode
                == 0
            )
        except subprocess.TimeoutExpired:
            passed = False
            log.write(f"\nit hangs, after {LIMIT} s\n")
    with open(path, encoding="utf-8", errors="replace") as log:
        said = log.read()
    print(
        "; ".join(
            [
                (
                    f"{step.name}: {'passed' if passed else 'FAILED'} in "
                    f"{time.monotonic() - begun:.0f} s"
                ),
                *skipped(said),
            ]
        ),
        flush=True,
    )
    return passed, said.splitlines()[-LINES:]


def lacking(steps):
    """Returns the packages that steps want and that aren't there once they were installed, as
    root."""
    return install(missing([package for it in steps for package in it.packages]))


def run_all(steps, tries=1):
    """Runs steps in order, prints a line for each, the end of what each that failed said, and how
    many passed; returns the status. A step has failed that fails this many times in a row: each is
    printed."""
    packages = lacking(steps)
    if packages:
        print(f"test: missing: apt-get install {' '.join(packages)}", file=sys.stderr)
        return 2
    os.makedirs(LOGS, exist_ok=True)
    failed = {}
    for step in steps:
        for _ in range(tries):
            passed, lines = run(step)
            if passed:
                break
        else:
            failed[step.name] = lines
    for name, lines in failed.items():
        print(
            (
                f"\n{name} failed; the end of "
                f"{os.path.relpath(LOGS, ROOT)}/{name.replace(' ', '-')}.log:"
            ),
            *lines,
            sep="\n    ",
        )
    if failed:
        print(f"\nfailed: {', '.join(failed)}")
    print(f"{len(steps) - len(failed)} passed, {len(failed)} failed", flush=True)
    return 1 if failed else 0


def quick(tries=1):
    """Runs the quick part; returns the status."""
    return run_all(QUICK, tries)


def all_suites():
    """Runs all; returns the status."""
    return run_all(ALL)


def gate():
    """Runs the quick part, and becomes rt ci where that has passed, whose last line is the last. A
    wrong body fails twice; a test that fails by a machine's moment alone doesn't keep a change from
    landing, and its line says that it failed."""
    status = quick(tries=2)
    if status:
        return status
    os.chdir(ROOT)
    os.execvp("rt", ["rt", "ci"])
