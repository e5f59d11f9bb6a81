"""The runs of a host that lends several Linux guests more memory than it has, and of such a host
with clients that aren't Linux. Under QEMU there are two guests at a time, on a host with 360 MiB.
The runs:

    lines     command lines, and what the host answers to lines
    spares    what a guest can spare, by its statistics and its balloon, worked out by hand
    seats     what a seat keeps of a guest whose rings stop, and forgets once it has gone
    queues    long queues, queues that nobody kicks, seats that are taken away, who goes amid a
              message
    worked    three clients that aren't Linux, whose targets are worked out by hand
    many      the same for 64 clients
    marks     the pages in a guest's balloon as its memory comes and goes, beside a set that is kept
              here
    tells     who gives, what a floor changes, and what of a deflate was taken
    files     a host that has no files left, that is ended by a signal, and of whose clients there
              is much to say
    shift-N   four guests at work on a host with 560 MiB, who use together what there is less 60 MiB
              at most: three days, in the last of which guests and host notify each other by events,
              not by messages
    greedy    four guests who want more than there is: the host says by how much it is short, and
              holds no more than that
    strict    a day that fits on a strict host: at no look do they hold more than the budget
    bare      the first of the days without balloons: it goes over the budget
    rest      what the targets are once nothing moves, and once a guest has gone
    lives     a guest that is killed while its balloon is filled, and comes back; one that doesn't
              answer
    anew      guests at work whose processes are killed a hundred times, amid inflates and deflates
    killed    a strict day on which the lender is killed every 5 seconds
    upgrades  a strict day on which the lender and guests' processes become programs of another
              version, ten times
    reboots   a guest that reboots and panics, beside two at work
    wants     four guests that all want 150 MiB at once, on a strict host that can't give it
    cache     three guests that can let go page cache alone
    rogue-X   a guest that reads all its memory past its driver, beside two at work: within a tmpfs,
              and within a cgroup
    full      a guest for whom there is no room; a budget that is too small for a while
    trash     clients that break rules, hang in mid-message, or cut their memory off, beside guests
              at work

After each run: kept bytes have their sums, no process was killed, the guests' kernels find no
fault, and each decision that the host has logged is what the rule says of its needs, worked out
once more here. Every wait has a limit.
"""

import functools
import random
import signal
import time

import linux_host
import linux_kit
from host_anew import anew_run
from host_checks import (
    REST_LIMIT,
    WRONG_LIMIT,
    await_rest,
    check_excess,
    check_given,
    check_spares,
    eventually,
    finish,
    growth,
    names,
    pages_moved,
)
from host_killed import killed_run
from host_limits import ROGUE_RUNS
from host_queues import queues_run
from host_reboots import reboots_run
from host_seats import seats_run, spares_run
from host_small import lines_run, many_run, worked_run
from host_strict import strict_run
from host_tenants import files_run, marks_run, tells_run
from host_trash import ENDED, end_one, hang_one
from host_upgrades import upgrades_run
from host_wants import cache_run, wants_run
from linux_guest import PAGES_PER_MIB
from linux_kit import Fault, demand
from linux_vmms import vmm_of
from vhost_client import Client

MEMORY = 256

# Seconds of a day of work, and of one that ends as soon as there is enough to see.
DAY, LONGEST_DAY = 40, 160

# Of this many looks one may be above the budget.
LOOKS_FOR_ONE = 200

# The budget of a pair of guests, in MiB. As the second comes, the first has to spare what is
# missing, and more isn't there then.
OF_A_PAIR = 360

# MiB by which a budget is less than what guests use, with their floors.
TOO_LITTLE = 20

# Runs that an emulator can't have: it takes more memory itself than its guest, so that a cgroup
# would limit the wrong one.
OF_UML_ALONE = ("rogue-cgroup",)

# Each wrong host, and the run that has to fail for it.
WRONG_HOSTS = {
    "1": "rest",
    "2": "rest",
    "3": "rest",
    "4": "rest",
    "5": "tells",
    "7": "tells",
    "8": "marks",
}


def shift_run(bench, seed):
    """Work that shifts between guests, and fits in sum."""
    guests, budget = bench.crowd(4, 560)
    with bench.town(budget, ("--events",) if seed == 3 else ()) as town:
        town.settle_in(guests, MEMORY)
        town.live(DAY, seed, budget - linux_host.LEFT * len(guests))
        finish(town)
        above, looks, most = town.above(), len(town.samples), growth(town.samples, max)
        demand(looks >= LOOKS_FOR_ONE, f"only {looks} looks")
        demand(
            len(above) <= looks // LOOKS_FOR_ONE,
            f"{len(above)} of {looks} looks above the budget, by {max(above, default=0):.1f} MiB",
        )
        demand(
            max(above, default=0) <= most,
            f"{max(above, default=0):.1f} MiB above the budget, and a guest grew by {most:.1f}",
        )
        demand(pages_moved(town) > 0, "no page moved")
        peak = max(sum(it.held) for it in town.samples)
        return (
            f"peak {peak:.0f} of {budget} MiB, {len(above)} of {looks} looks above, "
            f"{pages_moved(town)} pages moved"
        )


def greedy_run(bench):
    """Work that wants more than there is."""
    guests, budget = bench.crowd(4, 560)
    with bench.town(budget) as town:
        town.settle_in(guests, MEMORY)
        town.live(DAY, "greedy")
        excess, below = check_excess(town.samples, budget), check_given(town.samples)
        shorts = town.host.counters()["shorts"]
        demand(shorts > 0, "the host was never short")
        ended = lambda: town.host.counters()["short"] == 0 and sum(town.sample().held) <= budget
        eventually(ended, lambda: f"the work has ended, and there is {town.host.counters()}")
        finish(town)
        short = max(it.short for it in town.samples)
        above = len(town.above())
        looks = f"{above} of {len(town.samples)} looks above, by {excess:.0f} MiB at most"
        return (
            f"short {shorts} times, by {short:.0f} MiB at most; {looks}; a guest is below its "
            f"target for {below:.1f} seconds at most"
        )


def bare_run(bench):
    """The first day of `shift`, without balloons: no target, no report."""
    guests, budget = bench.crowd(4, 560)
    with bench.town(len(guests) * MEMORY, ("--features", "100000000")) as town:
        town.settle_in(guests, MEMORY)
        # It ends where there is enough to see; a machine that is busy takes longer.
        enough = budget * 15 // 14
        town.live(
            LONGEST_DAY,
            1,
            budget - linux_host.LEFT * len(guests),
            lambda it: sum(it.held) > enough and town.ended.set(),
        )
        finish(town)
        peak = max(sum(it.held) for it in town.samples)
        demand(
            peak > budget,
            f"without balloons the host holds {peak:.0f} MiB: so the test shows nothing",
        )
        return f"peak {peak:.0f} of {budget} MiB"


def want_more(town, member, budget):
    """A guest needs all that is left to it but for its floor: it gets a part of what others still
    have, and doesn't take it itself."""
    before = town.host.guests()[member.name]
    left = (before["spare"] - before["target"]) // PAGES_PER_MIB
    member.fill("left", max(left, min(8, int(member.free_mib()) // 2)))
    await_rest(town, budget)
    after = town.host.guests()[member.name]
    demand(
        after["target"] < before["target"],
        f"{member.name} is asked for as much as before: {after['target']} pages",
    )
    demand(
        after["taken"] == before["taken"],
        f"{member.name} has taken {after['taken'] - before['taken']} pages itself",
    )


def rest_run(bench):
    """What the targets are once nothing moves, and once a guest has gone."""
    guests, budget = bench.crowd(3, 480)
    with bench.town(budget) as town:
        town.settle_in(guests, MEMORY)
        town.members[0].fill("work", 120)
        await_rest(town, budget, limit=WRONG_LIMIT if bench.wrong else REST_LIMIT)
        check_spares(town)
        want_more(town, town.members[-1], budget)
        town.members[-1].kill()
        left = lambda: sum(it["target"] for it in town.host.guests().values())
        lack = (
            sum(it["pages"] for it in list(town.host.guests().values())[:-1])
            - budget * PAGES_PER_MIB
        )
        # A page more of each but one, as guests keep whole pages.
        eventually(
            lambda: max(0, lack) <= left() < max(0, lack) + len(guests) - 1,
            lambda: f"{left()} pages are asked for, and {lack} are missing",
            5,
        )
        town.members[-2].fill("work", 150)
        await_rest(town, budget)
        check_spares(town)
        finish(town)
        return f"{town.host.counters()['decisions']} decisions"


def kill_in_mid_inflate(town):
    """Kills the guest of least target while its balloon is filled with nearly all that it can
    spare; returns it."""
    seen = town.host.guests()
    victim = min(town.members, key=lambda it: seen[it.name]["target"])
    before, target = seen[victim.name]["ballooned"], seen[victim.name]["spare"] * 9 // 10
    town.host.demand(f"{victim.name} target {target}")
    end = time.monotonic() + 5
    while not before < town.host.guests()[victim.name]["ballooned"] < target:
        demand(time.monotonic() < end, "the balloon isn't filled in steps that can be seen")
    victim.kill()
    eventually(
        lambda: not town.host.guests()[victim.name]["here"],
        "a guest that was killed is still there",
        5,
    )
    return victim


def lives_run(bench):
    """A guest that is killed in mid-inflate and comes back, and one that doesn't answer for a
    while."""
    guests, budget = bench.crowd(3, 480)
    with bench.town(budget) as town:
        town.settle_in(guests, MEMORY)
        await_rest(town, budget)
        victim = kill_in_mid_inflate(town)
        others = [it for it in town.members if it is not victim]
        await_rest(town, budget)
        for it in others:
            it.fill("work", 100), it.drop("work")
        victim.boot()
        await_rest(town, budget)
        silence(town, victim, others)
        await_rest(town, budget)
        finish(town)
        return (
            f"{town.host.counters()['admitted']} guests came, {town.host.counters()['gone']} went"
        )


def silence(town, victim, others):
    """A guest stops, and counts as one that can spare what is ballooned alone; then it resumes."""
    victim.guest.process.send_signal(signal.SIGSTOP)
    try:
        eventually(
            lambda: not town.host.guests()[victim.name]["answers"],
            "a guest that stands still answers",
            5,
        )
        seen = town.host.guests()[victim.name]
        demand(
            seen["spare"] == seen["ballooned"],
            f"a guest that doesn't answer can spare {seen['spare']}, of {seen['ballooned']}",
        )
        for it in others:
            it.fill("work", 60), it.drop("work")
    finally:
        victim.guest.process.send_signal(signal.SIGCONT)
    eventually(
        lambda: town.host.guests()[victim.name]["answers"],
        "a guest that continues doesn't answer",
        10,
    )


def full_run(bench):
    """A guest for whom there is no room is refused until another one goes; so is a budget that is
    too small told."""
    guests, budget = bench.crowd(3, 480)
    with bench.town(budget) as town:
        town.settle_in(guests, MEMORY)
        for it in town.members:
            it.fill("work", 50 if len(guests) > 2 else 10)
        await_rest(town, budget)
        try:
            town.settle_in(["late"], MEMORY)
            raise AssertionError
        except AssertionError:
            raise Fault("a guest was let in for whom there is no room") from None
        except Fault as fault:
            demand("no room for" in str(fault), f"the guest isn't refused, but: {fault}")
        late = town.members[-1]
        late.kill()
        demand(town.host.counters()["refused"] == 1, f"nobody was refused: {town.host.counters()}")
        little = (
            sum(it["pages"] - it["spare"] for it in town.host.guests().values()) // PAGES_PER_MIB
            - TOO_LITTLE
        )
        town.host.demand(f"budget {little}")
        eventually(
            lambda: town.host.counters()["short"] > 0,
            f"{little} MiB suffice for guests who use as much, and have their floors",
            5,
        )
        short = town.host.counters()["short"] // PAGES_PER_MIB
        town.host.demand(f"budget {budget}")
        eventually(lambda: town.host.counters()["short"] == 0, "the host stays short", 5)
        town.members[0].kill()
        late.boot()
        for it in town.members[1:-1]:
            it.drop("work")
        await_rest(town, budget)
        finish(town)
        return f"refused, and let in once a guest had gone; short by {short} MiB of {little}"


def trash_run(bench):
    """Malformed clients, beside guests at work."""
    chance = random.Random("trash")
    with bench.town(480, checked=True) as town:
        town.settle_in(names(2), MEMORY)
        path = town.host.add("trash")
        for number in range(20):
            gone = town.host.counters()["gone"]
            end_one(town, Client(path, town.host.why), ENDED[number % len(ENDED)], chance, gone)
        hang_one(town, path)
        for it in town.members:
            it.fill("work", 60)
            it.drop("work")
        await_rest(town, 480)
        finish(town)
        demand(town.host.counters()["gone"] == 21, f"not every client went: {town.host.counters()}")
        return "20 clients ended, each alone; one hung"


RUNS = {
    "lines": lines_run,
    "spares": spares_run,
    "seats": seats_run,
    "queues": queues_run,
    "worked": worked_run,
    "many": many_run,
    "marks": marks_run,
    "tells": tells_run,
    "files": files_run,
    "shift-1": functools.partial(shift_run, seed=1),
    "shift-2": functools.partial(shift_run, seed=2),
    "shift-3": functools.partial(shift_run, seed=3),
    "greedy": greedy_run,
    "strict": strict_run,
    "bare": bare_run,
    "rest": rest_run,
    "lives": lives_run,
    "anew": anew_run,
    "killed": killed_run,
    "upgrades": upgrades_run,
    "reboots": reboots_run,
    "wants": wants_run,
    "cache": cache_run,
    **ROGUE_RUNS,
    "full": full_run,
    "trash": trash_run,
}


class Bench:
    """What all runs share: a kernel, the programs under test, and a folder."""

    def __init__(self, vmm, folder):
        self.folder, self.count, self.wrong = folder, 0, None
        self.vmm = vmm_of(vmm, folder)
        self.vmm.demand_room(4 * MEMORY)

    def crowd(self, count, budget):
        """Returns the names of `count` guests, and their budget; those of a pair, where the VMM has
        no more at a time."""
        return (names(count), budget) if count <= self.vmm.most_guests else (names(2), OF_A_PAIR)

    def town(self, budget, options=(), checked=False, uncounted=False, kind=linux_host.Town):
        """Returns a host without guests: with the compiler's checks, or one that ends where it
        counts a guest's whole set; a town of this kind."""
        self.count += 1
        of = (
            "wrong-plain"
            if self.wrong
            else "checked"
            if checked
            else "uncounted"
            if uncounted
            else "plain"
        )
        program = linux_kit.built(f"{of}/vhost_user_host")
        options = ("--step", "0", *options)
        return kind(
            self.vmm,
            program,
            f"{self.folder}/{self.count}",
            budget,
            options,
            {"HOST_WRONG": self.wrong or "0"},
        )
