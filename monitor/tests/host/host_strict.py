"""A day of a host that is strict: what is lent to guests never passes the budget, none of their
processes is killed, and a replay of what they asked for and gave grants the same, within the time
between two looks."""

from host_checks import eventually, finish, pages_moved
from linux_guest import PAGES_PER_MIB
from linux_host import LEFT
from linux_kit import Missing, built, demand
from recording import Recorder

MEMORY, BUDGET, DAY = 256, 560, 40


def outside(town):
    """Returns the MiB of each guest's file that it hasn't handed over: its kernel keeps them, and
    they aren't in the budget."""
    seen = town.host.guests()
    return [it.memory - seen[it.name]["pages"] / PAGES_PER_MIB for it in town.members]


def look(town, waits):
    """Demands that what is lent is within the budget, and notes who waits."""
    counters = town.host.counters()
    demand(counters["lent"] <= counters["frames"], f"more is lent than there is: {counters}")
    waits.append(sum(it["waits"] != "nothing" for it in town.host.guests().values()))


def compare(bench, recorder):
    """Demands that a replay of the recorded day grants the same; returns how far the two are apart
    at most, in seconds."""
    try:
        from bigvasta.plan import checking, lending, library
    except ImportError:
        raise Missing("the replay wants numpy and pandas: apt-get install python3-pandas") from None
    path = f"{bench.folder}/day.json"
    recorder.write(path)
    found = checking.check(library.load(built("libvb.so")), lending.read_lending(path))
    demand(found.agrees(), "\n".join(checking.lines(found)))
    return max(it.apart() for it in found.courses) * found.look


def strict_run(bench):
    """Four guests at work, who use together what there is less 60 MiB at most, on a strict host."""
    guests, budget = bench.crowd(4, BUDGET)
    with bench.town(budget, ("--strict",)) as town:
        town.settle_in(guests, MEMORY)
        waits = []
        with Recorder(f"{town.host.folder}/.control") as recorder:
            town.live(DAY, 1, budget - LEFT * len(guests), lambda _: look(town, waits))
        apart = compare(bench, recorder)
        kept = sum(outside(town))
        most = max(sum(it.held) for it in town.samples) - kept
        above = sum(sum(it.held) - kept > budget for it in town.samples)
        demand(
            above == 0,
            f"{above} of {len(town.samples)} looks above the budget, by {most - budget:.1f} MiB",
        )
        eventually(
            lambda: all(it["waits"] == "nothing" for it in town.host.guests().values()),
            "a guest waits for good",
        )
        finish(town)
        grants = town.host.counters()["grants"]
        demand(
            grants > 0 and pages_moved(town) > 0,
            f"{grants} grants, {pages_moved(town)} pages moved: nothing was lent",
        )
        said = (
            f"{len(town.samples)} looks, 0 above, peak {most:.0f} of {budget} MiB; {grants} "
            f"grants, {sum(waits)} seconds of waits"
        )
        return f"{said}; the replay grants the same, {apart:.1f} s apart"
