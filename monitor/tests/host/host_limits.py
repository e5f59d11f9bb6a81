"""A guest that reads all its memory past its driver, within a limit of the kernel's, which is a
tmpfs's size or a cgroup's memory: nobody else is hurt."""

import functools
import os

from host_checks import eventually, finish
from host_places import Cgroup, Mount, cgroups
from host_strict import look, outside
from linux_guest import PAGES_PER_MIB
from linux_host import LEFT, Member
from linux_kit import Fault, Missing, demand

MEMORY, BUDGET, DAY = 256, 480, 10

# The budget of a pair while the rogue guest has to give: both couldn't have come on that.
SMALL_BUDGET = 300

# MiB of the rogue guest beside its loan. In a tmpfs: what its kernel keeps, and doesn't hand over;
# in a cgroup its processes' own memory, too.
OVERHEADS = {"tmpfs": 16, "cgroup": 64}

# MiB that each of the others fills, so that the rogue guest has to give, and that it wants itself
# later; seconds in which that is done.
SQUEEZE, HONEST, DONE_IN = 100, 40, 60


def limit_of(kind, folder):
    """Makes a limit of this kind."""
    if os.geteuid() != 0:
        raise Missing("mounts and cgroups are for root")
    if kind == "cgroup" and not cgroups():
        raise Missing("this machine has no cgroups of memory")
    return Mount(f"{folder}/rogue", MEMORY, "mode=700") if kind == "tmpfs" else Cgroup("rogue")


def loan_of(town, name):
    """Returns the pages that are lent to a guest."""
    return town.host.guests()[name]["lent"]


def squeeze(town, rogue, limit, overhead):
    """Has the other guests want memory until the rogue one has given most of its own, and its limit
    follows."""
    if len(town.members) == 2:
        town.host.demand(f"budget {SMALL_BUDGET}")
    for it in town.members:
        if it is not rogue:
            it.fill("squeeze", SQUEEZE)
    half = MEMORY * PAGES_PER_MIB / 2
    done_in = DONE_IN * town.vmm.patience
    eventually(
        lambda: loan_of(town, rogue.name) < half,
        lambda: f"{rogue.name} gives too little: {town.host.guests()}",
        done_in,
    )
    follows = lambda: limit.pages() <= loan_of(town, rogue.name) + (overhead + 1) * PAGES_PER_MIB
    eventually(follows, lambda: f"the limit is {limit.pages()} pages", done_in)
    town.host.demand(f"budget {town.budget}")


def read_all(rogue, limit):
    """Has it read all; returns how that ended: not well, and it never held more than its limit."""
    most = limit.pages()
    try:
        status, said = rogue.read_all(DONE_IN)
        ended = f"status {status}: {said[-1:]}"
        demand(status != 0, "it has read all its memory")
    except Fault as fault:
        ended = str(fault)
    demand(limit.held() <= most, f"it holds {limit.held()} pages, and its limit was {most}")
    return ended


def rogue_run(bench, kind):
    """Two guests at work beside one that reads all its memory."""
    limit, overhead = limit_of(kind, f"{bench.folder}/{kind}"), OVERHEADS[kind]
    guests, budget = bench.crowd(3, BUDGET)
    try:
        with bench.town(budget, ("--strict",)) as town:
            town.settle_in(guests[:-1], MEMORY)
            rogue = Member(
                town.host,
                town.vmm,
                "rogue",
                MEMORY,
                f"overhead={overhead} limit={limit.term}",
                **limit.member(),
            )
            rogue.boot()
            town.members.append(rogue)
            squeeze(town, rogue, limit, overhead)
            most, held = limit.pages(), limit.held()
            rogue.fill("work", HONEST), rogue.drop("work")  # an honest guest has what it asks for
            ended = read_all(rogue, limit)
            town.members.remove(rogue)
            rogue.kill()
            return (
                f"it held {held >> 8} of {most >> 8} MiB of {MEMORY}, and ended by: {ended}; "
                f"{others_go_on(town, budget)}"
            )
    finally:
        limit.end()


def others_go_on(town, budget):
    """The others have their bytes, and work for a while."""
    for it in town.members:
        it.drop("squeeze")
    waits = []
    town.live(DAY, 1, budget - LEFT * len(town.members), lambda _: look(town, waits))
    kept = sum(outside(town))
    above = sum(sum(it.held) - kept > budget for it in town.samples)
    demand(above == 0, f"{above} of {len(town.samples)} looks above the budget")
    finish(town)
    return f"{len(town.samples)} looks, 0 above"


ROGUE_RUNS = {f"rogue-{it}": functools.partial(rogue_run, kind=it) for it in OVERHEADS}
