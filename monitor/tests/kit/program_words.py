"""What a program says of its command line."""

import re
import subprocess

from waiting import PATIENCE

# Options that are answered, whatever else there is.
ANSWERED = {"--help", "--version", "--print-capabilities"}


def ran(program, *words):
    """Runs a program to its end."""
    return subprocess.run(
        [program, *words],
        stdin=subprocess.DEVNULL,
        capture_output=True,
        text=True,
        timeout=PATIENCE,
        env={"LC_ALL": "C"},
    )


def demand_options_taken(program):
    """Demands that a program takes each option that its help names, before it finds that there are
    more words than it wants."""
    options = set(re.findall(r"--[a-z][a-z-]*", ran(program, "--help").stdout)) - ANSWERED
    said = {it: ran(program, f"{it}=", "a", "b").stderr.splitlines() for it in options}
    unknown = [it for it, lines in said.items() if "unrecognized option" in lines[0]]
    assert len(options) > 4 and not unknown, unknown
