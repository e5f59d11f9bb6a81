"""What `bigvasta plan` does, by the words of its command line."""

import json
import math
import os
import re
import sys

from bigvasta.plan import (
    checking,
    days,
    drawing,
    fleet,
    fleet_tables,
    lending,
    library,
    making,
    reading,
    runners,
    search,
    tables,
)
from bigvasta.plan.lender import Terms
from bigvasta.sizes import pages_of
from bigvasta.statuses import DONE, REFUSED, Usage
from bigvasta.words import say, write

MOST_GUESTS, LEAST_HOURS, MOST_HOURS, MOST_STEPS = 1000000, 0.01, 24 * 31, 1000
MOST_HOSTS, MOST_PLACES, MOST_PROMISE, MOST_PROCESSES = 100000, 1000, 100, 1024

# Seconds, as a host takes them.
MOST_PATIENCE = 86400


def hundredths_of(text, name):
    """Returns a promise, such as 1.85, in hundredths of a budget."""
    found = re.fullmatch(r"(\d{1,3})(?:\.(\d{1,2}))?", text, re.ASCII)
    value = int(found[1]) * fleet.WHOLE + int((found[2] or "").ljust(2, "0")) if found else 0
    demand(
        0 < value <= MOST_PROMISE * fleet.WHOLE,
        f"{name}: {text!r} isn't from 0.01 to {MOST_PROMISE}, with two digits after the point",
    )
    return value


def range_of(text, name, read):
    """Returns the ends of a range such as 2G..8G; a single value is a range, too."""
    first, found, last = text.partition("..")
    least = read(first, name)
    most = read(last, name) if found else least
    demand(least <= most, f"{name}: {text!r} ends before it begins")
    return least, most


def demand(good, words):
    """Refuses the command line where it isn't good."""
    if not good:
        raise Usage(words)


def demand_number(value, least, most, name, unit=""):
    """Refuses a number that isn't in a range."""
    demand(least <= value <= most, f"--{name}: {value} isn't from {least} to {most}{unit}")


def demand_make(asked):
    """Refuses days that can't be made."""
    demand_number(asked.make, 1, MOST_GUESTS, "make", " guests")
    demand_number(asked.hours, LEAST_HOURS, MOST_HOURS, "hours")


def run_make(asked):
    """Prints a day."""
    demand_make(asked)
    write(f"{line}\n" for line in making.make(asked.make, asked.seed, asked.hours))


def terms_of(asked, frames, least):
    """Returns the terms of a host with this budget: what each guest keeps free, its reserve, and
    what the host does where it stands still. An overdraft is no more than the least budget."""
    demand_number(asked.reserve, 0, 100, "reserve", " percent")
    demand_number(asked.patience, 1, MOST_PATIENCE, "patience", " seconds")
    floor, overdraft = (
        0 if text == "0" else pages_of(text, f"--{name}")
        for name, text in (("floor", asked.floor), ("overdraft", asked.overdraft))
    )
    demand(overdraft <= least, f"--overdraft: {asked.overdraft} is more than the budget")
    return Terms(frames, floor, asked.reserve, overdraft, asked.patience)


def plan_host(asked):
    """Returns the plan of a host."""
    demand(
        not (asked.budget or asked.scheduler or asked.processes),
        "plan: --budget, --processes and --scheduler are for a --fleet",
    )
    budgets = asked.budgets and range_of(asked.budgets, "--budgets", pages_of)
    terms = terms_of(asked, 0, budgets[0] if budgets else days.MOST_PAGES)
    calls = library.load(asked.library)
    day = reading.read(calls, asked.file)
    return search.plan(calls, day, terms, asked.wait_seconds, budgets, asked.steps)


def runner_of(asked):
    """Returns what runs the tasks of a fleet."""
    demand(
        not (asked.scheduler and asked.processes),
        "plan: --processes are of this machine, and --scheduler has workers of its own",
    )
    if asked.scheduler:
        return runners.Scheduler(asked.scheduler, sys.stderr)
    count = len(os.sched_getaffinity(0)) if asked.processes is None else asked.processes
    demand_number(count, 1, MOST_PROCESSES, "processes")
    return runners.Processes(count, sys.stderr)


def fleet_of(asked):
    """Returns the hosts of a fleet, and the promises to try."""
    demand(
        asked.budget is not None and asked.budgets is None,
        "plan: a fleet has a --budget, which each of its hosts has, and no --budgets",
    )
    demand_number(asked.fleet, 1, MOST_HOSTS, "fleet", " hosts")
    demand_number(asked.places, 1, MOST_PLACES, "places")
    frames, ends = pages_of(asked.budget, "--budget"), range_of(
        asked.promises, "--promises", hundredths_of
    )
    demand(
        frames * ends[1] // fleet.WHOLE <= days.MOST_PAGES,
        f"--promises: {asked.promises} times {asked.budget} isn't below 16T",
    )
    path = library.path_of(asked.library)
    library.load(path)
    return fleet.Fleet(asked.fleet, asked.places, path, terms_of(asked, frames, frames)), ends


def plan_fleet(asked):
    """Returns the plan of a fleet."""
    hosts, ends = fleet_of(asked)
    runner = runner_of(asked)
    if asked.make is None:
        source = fleet.Read(reading.read(library.load(asked.library), asked.file).guests)
    else:
        demand_make(asked)
        source = fleet.Made(asked.seed, asked.hours, tuple(range(1, asked.make + 1)))
    return fleet.plan(hosts, source, runner, asked.wait_seconds, ends, asked.steps)


def run_check(asked):
    """Prints how a replay of a strict host's day compares with what the host did; returns the exit
    status."""
    others = (
        asked.make,
        asked.fleet,
        asked.budgets,
        asked.budget,
        asked.draw,
        asked.scheduler,
        asked.processes,
    )
    demand(
        asked.file is not None and all(it is None for it in others),
        "plan: --check wants a FILE alone, of which it takes the budget",
    )
    found = checking.check(library.load(asked.library), lending.read_lending(asked.file))
    say(*([json.dumps(checking.document(found))] if asked.json else checking.lines(found)))
    return DONE if found.agrees() else REFUSED


def run(asked):
    """Prints the plan of a recorded day, or a day that is made; returns the exit status."""
    if asked.check:
        return run_check(asked)
    demand(
        (asked.file is None) != (asked.make is None),
        "plan: what is wanted is a FILE, or --make GUESTS",
    )
    if asked.make is not None and asked.fleet is None:
        return run_make(asked)
    demand(
        math.isfinite(asked.wait_seconds) and asked.wait_seconds >= 0,
        f"--wait-seconds: {asked.wait_seconds} isn't from 0 on",
    )
    demand_number(asked.steps, 1, MOST_STEPS, "steps")
    if asked.draw:
        drawing.load()
    found = plan_host(asked) if asked.fleet is None else plan_fleet(asked)
    own = None if asked.file is None or asked.fleet else lending.own_of(asked.file)
    if asked.draw:
        drawing.draw(found, asked.wait_seconds, own, asked.draw)
    said, more = (tables, (own,)) if asked.fleet is None else (fleet_tables, ())
    if asked.json:
        say(json.dumps(said.document(found, asked.wait_seconds, *more)))
    else:
        say(*said.lines(found, asked.wait_seconds, *more))
