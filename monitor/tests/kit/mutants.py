"""Programs that are wrong on purpose: each is refused by the test that is for it, and that alone is
run."""

import os
import subprocess
import sys

# How a fault begins that a test has found, and not the machine.
FOUND = (
    "E   AssertionError",
    "E   assert ",
    "E   TimeoutError",
    "E   subprocess.TimeoutExpired",
    "E   linux_kit.Fault",
    "E   linux_packages.Fault",
    "E   Failed: ",
)

# Seconds of a test that refuses one, and of each of its waits.
LIMIT, WAIT = 280, 20


def demand_refused(test, words=(), **environment):
    """Demands that a test fails by a fault of the program that the environment names; returns the
    fault."""
    ran = subprocess.run(
        [sys.executable, "-m", "pytest", "-q", "-n", "0", "--tb=short", *words, test],
        env=os.environ | environment | {"PATIENCE": str(WAIT)},
        capture_output=True,
        text=True,
        timeout=LIMIT,
    )
    faults = [it for it in ran.stdout.splitlines() if it.startswith(FOUND)]
    assert ran.returncode == 1 and faults, f"{test} passes: {ran.stdout[-500:]}{ran.stderr[-200:]}"
    return faults[0][4:]
