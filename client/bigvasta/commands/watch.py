"""`bigvasta watch`: a live view of the host in the terminal."""

from bigvasta.statuses import Usage
from bigvasta.watching import watch, watch_lines


def run(asked):
    """Shows the host until a key ends it."""
    if not 0.1 <= asked.interval <= 60:
        raise Usage(f"--interval: {asked.interval} isn't from 0.1 to 60 seconds")
    show = watch_lines if asked.json else watch
    show(asked.control, asked.interval)


def add(commands):
    """Adds the subcommand."""
    words = commands.add(
        "watch",
        run,
        "a live view in the terminal",
        "A bar for each guest: what it holds, what it could spare of that, its loan, what its "
        "target leaves it. Keys: q ends, s sorts by name, held or waits, p pauses, the arrows "
        "move.",
    )
    words.add_argument(
        "--interval", type=float, default=1.0, metavar="S", help="seconds between two looks (1)"
    )
