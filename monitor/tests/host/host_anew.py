"""A run of a host whose guests' processes are killed while balloons move: other processes go on,
and Linux notices nothing."""

import os
import signal
import threading

import linux_host
from host_checks import eventually, finish, pages_moved
from linux_kit import demand

MEMORY, BUDGET = 256, 480

# How often a process is killed, and the most seconds of such a day.
KILLS, LONGEST_DAY = 100, 300


def moving(seen):
    """Returns the guests whose balloons aren't at their targets."""
    return [it for it, its in seen.items() if its["process"] and its["ballooned"] != its["target"]]


class Killer(threading.Thread):
    """Kills processes of guests whose balloons move, one after the other."""

    def __init__(self, town):
        super().__init__(daemon=True)
        self.town, self.killed, self.inflates, self.fault = town, 0, 0, None
        self.start()

    def run(self):
        try:
            while self.killed < KILLS and not self.town.ended.wait(0.005):
                seen = self.town.host.guests()
                for name in moving(seen):
                    self.kill(name, seen[name])
        except Exception as fault:
            self.fault = fault
            self.town.ended.set()

    def kill(self, name, its):
        """Kills a guest's process, and waits for the one that takes over."""
        os.kill(its["process"], signal.SIGKILL)
        self.killed += 1
        self.inflates += its["ballooned"] < its["target"]
        eventually(
            lambda: self.town.host.guests()[name]["process"] not in (0, its["process"]),
            f"nobody takes over {name}",
        )


def anew_run(bench):
    """Guests at work, whose processes are killed amid inflates and deflates."""
    guests, budget = bench.crowd(3, BUDGET)
    with bench.town(budget) as town:
        town.settle_in(guests, MEMORY)
        said, killer = [it.guest.why() for it in town.members], Killer(town)
        town.live(
            LONGEST_DAY,
            "anew",
            budget - linux_host.LEFT * len(guests),
            lambda _: killer.killed >= KILLS and town.ended.set(),
        )
        killer.join()
        demand(killer.fault is None, f"a killed process: {killer.fault}")
        demand(
            killer.killed >= KILLS,
            f"only {killer.killed} processes were killed while a balloon moved",
        )
        demand(
            0 < killer.inflates < killer.killed,
            (
                f"{killer.inflates} of {killer.killed} processes were killed amid inflates, and "
                "the others amid deflates"
            ),
        )
        town.ended.clear()
        finish(town)
        gone, checked = town.host.counters()["gone"], sum(it.checked for it in town.members)
        demand(gone == 0, f"{gone} guests went")
        demand(
            [it.guest.why() for it in town.members] == said,
            f"a VMM says {[it.guest.why() for it in town.members]}",
        )
        return (
            f"{killer.killed} processes killed, {killer.inflates} amid inflates; {checked} sums "
            f"right, {pages_moved(town)} pages moved"
        )
