"""`bigvasta plan`: which budget a host needs, by recorded days that are replayed through the
library."""

import argparse

from bigvasta.statuses import Usage

EXAMPLE = """example: a day that is made, and the budget that its guests need
  apt-get install python3-pandas python3-matplotlib
  bigvasta plan --make 30 --seed 1 > day.csv
  bigvasta plan day.csv --floor 12M --wait-seconds 60 --draw day.svg

A recording is CSV, with a line of column names: guest, seconds, size, free, and used or available
(bytes; free may be empty); or Prometheus' answer to query_range of bigvasta_guest_memory_bytes,
bigvasta_guest_available_bytes, bigvasta_guest_free_bytes and bigvasta_guest_ballooned_bytes. For
--check it has bigvasta_budget_bytes, too, and of each guest loan_bytes, asked_bytes,
granted_bytes_total and waiting_seconds.

a fleet: how often 100 hosts of 24G may promise that to 3000 guests
  bigvasta plan --fleet 100 --budget 24G --make 3000 --promises 1.5..2 --steps 5"""

# How many steps a range has that is tried; which promises of a fleet are; and how many guests a
# host of it has at most, as vhost_user_host.
STEPS, PROMISES, PLACES = 12, "1.00..2.00", 64

# What is reserved for page cache, and for how long others are kept waiting, as vhost_user_host has
# it: percent, and seconds.
RESERVE, PATIENCE = 5, 10


def run(asked):
    """Prints the plan of a recorded day, or a day that is made; returns the exit status."""
    try:
        from bigvasta.plan import command
    except ImportError as fault:
        if (fault.name or "").partition(".")[0] == "bigvasta":
            raise
        raise Usage("plan wants numpy and pandas: apt-get install python3-pandas") from None
    return command.run(asked)


def add(commands):
    """Adds the subcommand, which asks no host."""
    words = commands.own.add_parser(
        "plan",
        help="which budget a host needs, by a recorded day",
        epilog=EXAMPLE,
        formatter_class=argparse.RawDescriptionHelpFormatter,
        description=(
            "Replays a recorded day of a host's guests under budgets, through the library that "
            "decides for a host, and names the "
            "smallest budget at which guests wait no longer than they may. Wants python3-pandas; "
            "--draw wants python3-matplotlib."
        ),
    )
    words.add_argument(
        "file",
        metavar="FILE",
        nargs="?",
        help="the recorded day, as CSV or as Prometheus hands it out",
    )
    words.add_argument(
        "--budgets",
        metavar="A..B",
        help="the budgets to try, such as 2G..8G; by default those that may serve",
    )
    words.add_argument(
        "--steps",
        type=int,
        default=STEPS,
        metavar="N",
        help=f"how many steps a range has ({STEPS})",
    )
    words.add_argument(
        "--floor", default="12M", metavar="SIZE", help="what each guest keeps free (12M)"
    )
    words.add_argument(
        "--reserve",
        type=int,
        default=RESERVE,
        metavar="PERCENT",
        help=f"what each guest keeps of its page cache as long as others have any ({RESERVE})",
    )
    words.add_argument(
        "--overdraft",
        default="0",
        metavar="SIZE",
        help="what may be lent beyond the budget where guests wait for each other (0)",
    )
    words.add_argument(
        "--patience",
        type=int,
        default=PATIENCE,
        metavar="S",
        help=f"after how long who restarts or comes lets others pass ({PATIENCE})",
    )
    words.add_argument(
        "--wait-seconds",
        type=float,
        default=60.0,
        metavar="S",
        help="how long a guest may wait in a day (60)",
    )
    words.add_argument(
        "--check",
        action="store_true",
        help=(
            "replay what the guests of a strict host asked for and gave, and compare what they "
            "were granted"
        ),
    )
    words.add_argument(
        "--json", action="store_true", help="print the plan as an object: bytes and seconds"
    )
    words.add_argument("--draw", metavar="FILE", help="draw it, too, into a file such as day.svg")
    words.add_argument("--library", metavar="FILE", help="the library, libvb.so")
    words.add_argument(
        "--make",
        type=int,
        metavar="GUESTS",
        help="print a day of this number of guests; of a fleet: its guests, in place of FILE",
    )
    words.add_argument("--seed", type=int, default=1, metavar="N", help="which day is made (1)")
    words.add_argument(
        "--hours",
        type=float,
        default=24.0,
        metavar="H",
        help="how long the day is that is made (24)",
    )
    fleet = words.add_argument_group(
        "a fleet, whose guests come to the first host that may still promise them their memory"
    )
    fleet.add_argument("--fleet", type=int, metavar="HOSTS", help="how many hosts there are")
    fleet.add_argument("--budget", metavar="SIZE", help="the budget of each host")
    fleet.add_argument(
        "--promises",
        default=PROMISES,
        metavar="A..B",
        help=f"how many times a host may promise its budget, to try ({PROMISES})",
    )
    fleet.add_argument(
        "--places",
        type=int,
        default=PLACES,
        metavar="N",
        help=f"how many guests a host has at most ({PLACES})",
    )
    fleet.add_argument(
        "--processes",
        type=int,
        metavar="N",
        help="replay on this number of processors; by default on all",
    )
    fleet.add_argument(
        "--scheduler",
        metavar="tcp://HOST:PORT",
        help="replay on the workers of a Dask scheduler; wants python3-distributed",
    )
    words.set_defaults(run=run)
