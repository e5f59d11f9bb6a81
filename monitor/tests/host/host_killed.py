"""Days of a strict host whose lender is killed again and again, and its guests' processes too: a
later lender takes over the guests, and no look finds them above the budget, not even while no
lender is there."""

import os
import random
import signal
import threading
import time
from collections import Counter

import linux_host
from host_checks import eventually, finish, pages_moved
from host_strict import BUDGET, DAY, LEFT, MEMORY, look, outside
from linux_kit import demand

# Seconds between two ends of the lender on the day of the run; those for which the host then has
# none; looks at what the guests hold then.
EVERY, AWAY, LOOKS = 5, 0.5, 5

# Seconds between two ends on a day of hours, of the lender and of a process, at most; and in which
# what was killed has gone on, on a machine that has other work.
LONG_EVERY, PROCESS_EVERY, GOES_ON_IN = 90, 30, 120

# Counters of a lender, which the next one counts from 0.
COUNTED = ("decisions", "changed", "grants", "gone", "refused", "shorts")


class Town(linux_host.Town):
    """All guests of a host whose lender is killed now and then."""

    def __init__(self, *words):
        super().__init__(*words)
        self.words, self.changes = words, threading.RLock()
        self.lenders, self.processes, self.counted, self.alone, self.away = 0, 0, Counter(), [], 0.0

    def sample(self):
        with self.changes:
            return super().sample()

    def note_counters(self):
        """Adds what the lender has counted, before another one counts from 0."""
        counters = self.host.counters()
        self.counted.update({it: counters[it] for it in COUNTED})

    def replace_lender(self):
        """Kills the lender, looks at what the guests hold without one, and starts the next."""
        with self.changes:
            self.note_counters()
            self.host.process.kill()
            self.host.process.wait()
            begin = time.monotonic()
            for _ in range(LOOKS):
                self.alone.append(sum(it.guest.held_mib() for it in self.members))
                time.sleep(AWAY / LOOKS)
            self.start_next()
            self.away += time.monotonic() - begin
            self.lenders += 1

    def start_next(self):
        """Starts a lender in the folder of the one before, whose guests it has to find, each where
        it was."""
        _, program, folder, budget, options, environment = self.words
        old = self.host
        os.rename(old.log, f"{old.log}.{self.lenders}")
        old.process.stdin.close(), old.process.stdout.close()
        self.host = linux_host.Host(program, folder, budget, options, environment)
        for it in self.members:
            it.host = self.host
        here = lambda: all(it["here"] and it["ready"] for it in self.host.guests().values())
        eventually(
            here, lambda: f"a guest is lost: {self.host.guests()}; {self.host.why()}", GOES_ON_IN
        )

    def kill_process(self, name):
        """Kills a guest's process, and waits for the one that takes over."""
        with self.changes:
            process = self.host.guests()[name]["process"]
            os.kill(process, signal.SIGKILL)
            gone_on = lambda: self.host.guests()[name]["process"] not in (0, process)
            eventually(gone_on, f"nobody takes over {name}", GOES_ON_IN)
            self.processes += 1


class Killer(threading.Thread):
    """Has something killed at times; `act` is done each time, after as many seconds as `rest`
    says."""

    def __init__(self, town, rest, act):
        super().__init__(daemon=True)
        self.town, self.rest, self.act, self.fault = town, rest, act, None
        self.ended = threading.Event()
        self.start()

    def run(self):
        try:
            while not self.ended.wait(self.rest()) and not self.town.ended.is_set():
                self.act()
        except Exception as fault:
            self.fault = fault
            self.town.ended.set()

    def end(self):
        """Ends it; what it found wrong is raised."""
        self.ended.set()
        self.join()
        if self.fault:
            raise self.fault


def check_looks(town, budget):
    """Demands that no look found more than the budget; returns the most that one did."""
    kept = sum(outside(town))
    held = [sum(it.held) - kept for it in town.samples] + [it - kept for it in town.alone]
    above = [it for it in held if it > budget]
    demand(
        not above,
        (
            f"{len(above)} of {len(held)} looks above the budget, by "
            f"{max(above, default=0) - budget:.1f} MiB"
        ),
    )
    return max(held)


def day(bench, seconds, rest, others=None):
    """A day on which the lender is killed each time that `rest` has passed, and a process each time
    that `others` has; returns the town's figures."""
    guests, budget = bench.crowd(4, BUDGET)
    with bench.town(budget, ("--strict",), kind=Town) as town:
        town.settle_in(guests, MEMORY)
        killers = [Killer(town, rest, town.replace_lender)]
        chance, waits = random.Random("processes"), []
        if others:
            killers.append(Killer(town, others, lambda: town.kill_process(chance.choice(guests))))
        try:
            town.live(seconds, 1, budget - LEFT * len(guests), lambda _: note(town, waits))
        finally:
            for it in killers:
                it.end()
        most = check_looks(town, budget)
        eventually(
            lambda: all(it["waits"] == "nothing" for it in town.host.guests().values()),
            "a guest waits for good",
            GOES_ON_IN,
        )
        finish(town)
        town.note_counters()
        return figures(town, most, waits)


def note(town, waits):
    """Demands that what is lent is within the budget, and notes who waits."""
    with town.changes:
        look(town, waits)


def figures(town, most, waits):
    """Demands that work was done and nobody was lost; returns what there was, in words."""
    counted, checked = town.counted, sum(it.checked for it in town.members)
    demand(counted["gone"] == counted["refused"] == 0, f"guests went, or were refused: {counted}")
    demand(
        town.lenders > 0 and counted["grants"] > 0 and checked > 0,
        f"{town.lenders} lenders killed, {checked} sums: {counted}",
    )
    looks = (
        f"{len(town.samples)} looks and {len(town.alone)} without a lender, 0 above, peak "
        f"{most:.0f} of {town.budget} MiB"
    )
    killed = (
        f"{town.lenders} lenders killed, away for {town.away / town.lenders:.2f} s each, "
        f"{town.processes} processes"
    )
    work = (
        f"{counted['grants']} grants, {pages_moved(town)} pages moved, {counted['decisions']} "
        f"decisions, {checked} sums right"
    )
    return f"{looks}; {killed}; {work}; {sum(waits)} seconds of waits"


def killed_run(bench):
    """A strict day on which the lender is killed every 5 seconds."""
    return day(bench, DAY, lambda: EVERY)


def hours_run(bench, seconds):
    """Hours of guests at work, with the lender and processes killed now and then."""
    chance, other = random.Random("lenders"), random.Random("others")
    return day(
        bench,
        seconds,
        lambda: chance.uniform(1, LONG_EVERY),
        lambda: other.uniform(1, PROCESS_EVERY),
    )
