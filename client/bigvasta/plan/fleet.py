"""A fleet: guests that are placed on hosts, and the day of each host replayed as a task of its own.
The answer is the same wherever the tasks run, and in whatever order they end."""

import functools
import itertools
import math
from typing import NamedTuple

from bigvasta import __version__
from bigvasta.plan import library, making
from bigvasta.plan.days import day_of
from bigvasta.plan.lender import Terms
from bigvasta.plan.placing import Promises, Stay, place
from bigvasta.plan.replay import Answer, replay
from bigvasta.plan.search import search
from bigvasta.statuses import Usage

# A promise counts hundredths of a budget.
WHOLE = 100

load = functools.lru_cache(library.load)


class Made(NamedTuple):
    """Guests that are made: where their host's day is replayed, not before."""

    seed: int
    hours: float
    numbers: tuple

    def stays(self):
        """Returns when each guest is there, by its number."""
        made = {it: making.Made(self.seed, it, self.hours) for it in self.numbers}
        return {
            number: Stay(it.size // making.PAGE, it.start, it.end)
            for number, it in made.items()
            if it.start < it.end
        }

    def part(self, numbers):
        """Returns some of them."""
        return self._replace(numbers=tuple(numbers))

    def guests(self):
        """Returns them with their days."""
        return [making.Made(self.seed, it, self.hours).recorded() for it in self.numbers]


class Read(NamedTuple):
    """Guests that were recorded."""

    recorded: tuple

    def stays(self):
        """Returns when each guest is there, by its number."""
        return {number: Stay(it.pages, it.start, it.end) for number, it in enumerate(self.recorded)}

    def part(self, numbers):
        """Returns some of them."""
        return Read(tuple(self.recorded[it] for it in numbers))

    def guests(self):
        """Returns them with their days."""
        return self.recorded


class Fleet(NamedTuple):
    """The hosts, which are alike: how many, how many guests each has room for, what its library is,
    its budget and floor."""

    hosts: int
    places: int
    library: str
    terms: Terms


class Task(NamedTuple):
    """The day of a host."""

    version: str
    library: str
    terms: Terms
    part: tuple


class FleetAnswer(NamedTuple):
    """What a fleet says under a promise: the answer of each host by its number, of all together,
    and how many guests find no host."""

    hundredths: int
    hosts: dict
    away: int
    total: Answer

    def promise(self):
        """Returns how many times a budget is promised."""
        return self.hundredths / WHOLE

    def label(self):
        """Returns how a picture names it."""
        return f"{self.promise():.2f} times the budget"

    def wait_a_day(self):
        """Returns the seconds that a guest waited in a day, of all guests together."""
        return self.total.wait_a_day()

    @property
    def above(self):
        """How many pages a host lends beyond what it has, at worst, as the day begins."""
        return self.total.above

    @property
    def lacked(self):
        """By how many pages a host was short at worst."""
        return self.total.lacked


def run_task(task):
    """Replays the day of a host: in a process of its own, or on a worker."""
    if task.version != __version__:
        raise Usage(f"plan: a worker has bigvasta {__version__}, and {task.version} is wanted")
    return replay(load(task.library), day_of(task.part.guests()), task.terms)


def together(answers):
    """Returns the answer of hosts together: sums, and of what was worst the worst."""
    worst = max(answers, key=lambda it: it.worst_waited)
    return Answer(
        sum(it.budget for it in answers),
        sum(it.promised for it in answers),
        sum(it.guests for it in answers),
        math.fsum(it.present for it in answers),
        math.fsum(it.waited for it in answers),
        tuple(itertools.chain.from_iterable(it.waits for it in answers)),
        worst.worst_guest,
        worst.worst_waited,
        sum(it.shorts for it in answers),
        math.fsum(it.short for it in answers),
        max(it.lacked for it in answers),
        sum(it.moved for it in answers),
        sum(it.decisions for it in answers),
        max(it.overdrawn for it in answers),
        math.fsum(it.overdrawn_seconds for it in answers),
        sum(it.proceeded for it in answers),
        sum(it.passed for it in answers),
        max(it.above for it in answers),
    )


def answer_of(hundredths, hosts, away):
    """Returns what a fleet says."""
    return FleetAnswer(hundredths, hosts, len(away), together(list(hosts.values())))


class Planner:
    """Tries promises: places the guests of a source, and has a runner replay the days of all
    hosts."""

    def __init__(self, fleet, source, runner):
        self.fleet, self.source, self.runner, self.stays = fleet, source, runner, source.stays()

    def placed(self, hundredths):
        """Returns the guests of each host by its number, in the order of the hosts, and those that
        find none."""
        fleet = self.fleet
        frames = fleet.terms.frames * hundredths // WHOLE
        hosts, away = place(
            Promises(load(fleet.library), fleet.hosts, frames, fleet.places), self.stays
        )
        if not hosts:
            raise Usage(
                f"plan: no host may promise enough for any guest, by {hundredths / WHOLE:.2f} "
                "times the budget"
            )
        return dict(sorted(hosts.items())), away

    def try_all(self, promises):
        """Returns what the fleet says under each of these promises."""
        placed = [self.placed(it) for it in promises]
        keys = [(number, host) for number, (hosts, _) in enumerate(placed) for host in hosts]
        tasks = (
            Task(
                __version__,
                self.fleet.library,
                self.fleet.terms,
                self.source.part(placed[number][0][host]),
            )
            for number, host in keys
        )
        answers = dict(zip(keys, self.runner.run_all(run_task, tasks)))
        return [
            answer_of(promise, {host: answers[number, host] for host in hosts}, away)
            for number, (promise, (hosts, away)) in enumerate(zip(promises, placed))
        ]


def plan(fleet, source, runner, limit, ends, steps):
    """Tries promises from the largest to the smallest of a range."""
    return search(Planner(fleet, source, runner).try_all, ends[::-1], steps, limit)
