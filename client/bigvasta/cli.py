"""The command line: one subcommand a module of `commands`."""

import argparse
import sys

from bigvasta import __version__
from bigvasta.commands import MODULES
from bigvasta.connection import CONTROL, STATUS
from bigvasta.statuses import DONE, TABLE, Fault, Refused, Usage
from bigvasta.subcommands import Subcommands
from bigvasta.words import open_streams, plain, silence


def parser():
    """Returns the command line's parser."""
    words = argparse.ArgumentParser(
        prog="bigvasta",
        description="Shows and changes what a host lends to its guests.",
        epilog=TABLE,
        formatter_class=argparse.RawDescriptionHelpFormatter,
    )
    words.add_argument("--version", action="version", version=f"bigvasta {__version__}")
    commands = Subcommands(words)
    for module in MODULES:
        module.add(commands)
    return words


# What may be done where a host refuses, by the code of its refusal.
HINTS = {
    "no-guest": "`bigvasta status --names` has those that there are",
    "guest-exists": "`bigvasta guest NAME KEY=VALUE` changes it",
    "read-only": "--control names the socket by which it is changed",
}


def about(asked, fault):
    """Returns the words of a fault: of which guest, or of which size of the host's, what is wrong,
    and what may be done."""
    words, whose = str(fault), getattr(asked, "name", None)
    if isinstance(fault, Refused):
        field = asked.request if fault.field == "bytes" else fault.field
        words = fault.text if field in (None, "name", "request") else f"{field}: {fault.text}"
        words += f": {HINTS[fault.code]}" if fault.code in HINTS else ""
    elif not isinstance(fault, Usage):
        return words
    return words if not whose or whose in words else f"{whose}: {words}"


def main(words):
    """Runs the command line; returns the exit status."""
    open_streams()
    asked = parser().parse_args(words)
    if "control" in asked:
        asked.control = asked.control or (CONTROL if asked.changes(asked) else STATUS)
    sys.stdout.reconfigure(errors="backslashreplace")
    try:
        return asked.run(asked) or DONE
    except Fault as fault:
        print(f"bigvasta: {plain(about(asked, fault))}", file=sys.stderr)
        return fault.status
    except KeyboardInterrupt:
        return DONE
    except BrokenPipeError:
        silence()  # who read the output has gone
        return DONE
