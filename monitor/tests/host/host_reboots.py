"""A run of a guest on a strict host that reboots, and whose kernel panics, beside others at
work."""

import random
import threading

from host_checks import finish
from host_killed import Town, check_looks
from host_strict import MEMORY, look
from linux_host import LEFT
from linux_kit import demand

# MiB for three guests of which two work; the lives of the third, of which there are half as many
# under emulation, and the MiB that it fills in each; the most seconds of the work, which ends with
# those lives.
BUDGET, LIVES, MOST_FILL, LONGEST_DAY = 560, 8, 90, 600

# The budget of a pair, and the MiB of a floor.
PAIR_BUDGET, FLOOR = 430, 12


class Lives(threading.Thread):
    """A guest that fills its memory and reboots, or panics and is restarted, over and over."""

    def __init__(self, town, member, count):
        super().__init__(daemon=True)
        self.town, self.member, self.count, self.fault, self.ended = town, member, count, None, 0

    def run(self):
        chance = random.Random("reboots")
        try:
            while self.ended < self.count:
                self.member.fill("work", chance.randint(20, MOST_FILL))
                with self.town.changes:
                    guest = self.member.take()
                self.ended += 1
                (self.member.panic if self.ended % 2 == 0 else self.member.reboot)(guest)
        except Exception as fault:
            self.fault = fault
        self.town.ended.set()


def limit_of(town, budget):
    """Returns the MiB that all may use together: what leaves the one that reboots all its memory,
    which it wants at once then. Where the others wait for more than is left, all would wait for
    good."""
    return (
        budget - MEMORY - FLOOR - LEFT * (len(town.members) - 1) + town.used_mib(town.members[-1:])
    )


def reboots_run(bench):
    """Two guests at work beside one that reboots and panics: none of them loses a byte, and no look
    finds more than the budget."""
    guests, budget = bench.crowd(3, BUDGET)
    budget = budget if len(guests) > 2 else PAIR_BUDGET
    with bench.town(budget, ("--strict",), kind=Town) as town:
        town.settle_in(guests, MEMORY)
        count = LIVES if bench.vmm.patience == 1 else LIVES // 2
        lives, waits = Lives(town, town.members[-1], count), []

        def every(_):
            if lives.ident is None:
                lives.start()
            look(town, waits)

        town.live(LONGEST_DAY, "reboots", limit_of(town, budget), every, town.members[:-1])
        lives.join()
        demand(lives.fault is None, f"a guest that reboots and panics: {lives.fault}")
        town.ended.clear()
        most = check_looks(town, budget)
        finish(town)
        counters = town.host.counters()
        went = count if bench.vmm.reboots_anew else count // 2
        seen = tuple(counters[it] for it in ("gone", "admitted", "refused"))
        demand(seen == (went, len(guests) + went, 0), f"{count} lives ended: {counters}")
        return (
            f"{count} lives ended, half by a panic; {len(town.samples)} looks, 0 above, peak "
            f"{most:.0f} MiB; {sum(waits)} seconds of waits"
        )
