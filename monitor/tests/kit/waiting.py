"""Waits of tests, which end by themselves, and what a process does meanwhile."""

import os
import time

# Seconds after which any wait has failed: a machine may be busy, or emulated. Who tests programs
# that are wrong gives them fewer.
PATIENCE = float(os.environ.get("PATIENCE", "300"))


def patience_from_now():
    """Returns when a wait that begins now has failed."""
    return time.monotonic() + PATIENCE


def eventually(condition, what="", limit=None):
    """Waits until a condition holds, for `limit` seconds at most (PATIENCE), and returns what it
    came to."""
    end = time.monotonic() + (limit or PATIENCE)
    while True:
        found = condition()
        if found:
            return found
        assert time.monotonic() < end, what() if callable(what) else what
        time.sleep(0.02)


def seconds_of(process):
    """Returns the seconds for which a process has had a processor."""
    with open(f"/proc/{process}/schedstat", encoding="ascii") as its:
        return int(its.read().split()[0]) / 1e9


def sleeps_of(process):
    """Returns how often a process has gone to sleep by itself."""
    with open(f"/proc/{process}/status", encoding="ascii") as its:
        return next(int(it.split()[1]) for it in its if it.startswith("voluntary_ctxt_switches"))


def goes_on_sleeping(process):
    """Waits until a process has gone to sleep some more times, as one doesn't that always looks."""
    before = sleeps_of(process)
    eventually(lambda: sleeps_of(process) >= before + 3, "it never sleeps")
