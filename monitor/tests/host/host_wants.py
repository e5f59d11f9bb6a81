"""Runs of guests that want more than there is: four that all want 150 MiB at once, on a strict host
that can't give it; and three whose memory is full of what Linux can let go at once."""

import threading
import time

from host_checks import await_rest, eventually, finish
from host_strict import BUDGET, MEMORY, outside
from linux_guest import PAGES_PER_MIB
from linux_host import Member
from linux_kit import Fault, demand

# What each of four guests wants at once, in MiB. With what Linux and kept bytes take, 55 to 70 MiB,
# that is 205 to 220 each: 560 MiB have room for two, or for a part of what each wants. All four
# have it with 840. A pair under QEMU wants as much of its budget.
WANTED, ALL_HAVE_IT = 150, 840

# Seconds in which all wait and nobody is granted anything, and MiB by which the budget grows then.
STALLS, GROWS = 3, 64

# MiB of files that each of three guests reads, and the budget on which that is too much; a pair's
# is two thirds of it.
CACHE, CACHE_BUDGET, CACHE_MEMORY = 150, 400, 256

# Seconds in which a target is reached.
REACHED_IN = 60


class Want(threading.Thread):
    """A guest that wants memory at once, and frees it once it has had it for a moment and is let
    (`free`)."""

    def __init__(self, member, free):
        super().__init__(daemon=True)
        self.member, self.free, self.fault, self.has, self.done = member, free, None, False, False
        self.start()

    def run(self):
        try:
            self.member.fill("wanted", WANTED)
            self.has = True
            self.free.wait()
            time.sleep(1)
            self.member.drop("wanted")
            self.done = True
        except Fault as fault:
            self.fault = fault


def stalled(town, wants):
    """Looks until a guest has what it wants, or until all that haven't wait for the same for a
    while; whether they do."""
    count, since = sum(it.has for it in wants), time.monotonic()
    grants, waited = town.host.counters()["grants"], False
    while time.monotonic() - since < STALLS and sum(it.has for it in wants) == count:
        town.watch(0.2)
        now = town.host.counters()["grants"]
        waited = all(it.has or wait for it, wait in zip(wants, town.samples[-1].waits))
        if now != grants or not waited:
            grants, since = now, time.monotonic()
        fault = next((it.fault for it in wants if it.fault), None)
        demand(fault is None, f"a guest that wants memory: {fault}")
    return waited and sum(it.has for it in wants) == count < len(wants)


def check_within(town, begin, budget):
    """Demands that no look since the one of this number was above a budget."""
    kept = sum(outside(town))
    most = max((sum(it.held) - kept for it in town.samples[begin:]), default=0)
    demand(most <= budget, f"{most:.1f} MiB are held of {budget}")


def wants_run(bench):
    """Four guests that want 150 MiB at once wait, and none of their processes is killed; all are
    served, one after the other, as there is room."""
    guests, budget = bench.crowd(4, BUDGET)
    first, most, begin, free = budget, budget * ALL_HAVE_IT // BUDGET, 0, threading.Event()
    with bench.town(budget, ("--strict",)) as town:
        town.settle_in(guests, MEMORY)
        wants = [Want(it, free) for it in town.members]
        while not all(it.done for it in wants):
            if not stalled(town, wants):
                demand(
                    free.is_set() or not all(it.has for it in wants),
                    f"all have {WANTED} MiB at once, with a budget of {first}",
                )
                continue
            check_within(town, begin, budget)
            if not free.is_set():
                free.set()
                continue
            begin, budget = len(town.samples), budget + GROWS
            demand(
                budget < most + GROWS,
                f"all have what they want with {most} MiB, and {budget - GROWS} aren't enough",
            )
            town.host.demand(f"budget {budget}")
        check_within(town, begin, budget)
        eventually(
            lambda: all(it["waits"] == "nothing" for it in town.host.guests().values()),
            "a guest waits for good",
        )
        finish(town)
        return (
            f"all {len(guests)} waited on {first} MiB, and were served in turn with {budget}; "
            f"{town.host.counters()['grants']} grants"
        )


def read_files(member):
    """Has a guest read a disk until that fills its page cache."""
    member.guest.do("read_disk", REACHED_IN * member.vmm.patience)
    cached = int(member.guest.do("cached")[0].split()[1]) / 1024
    demand(cached >= CACHE, f"{member.name} has {cached:.0f} MiB in its page cache")


def disk_of(folder):
    """Makes a disk without anything on it."""
    path = f"{folder}/disk"
    with open(path, "wb") as disk:
        disk.truncate(CACHE << 20)
    return path


def cache_run(bench):
    """Three guests whose page cache is all that they could let go give it: their targets are
    reached."""
    guests, _ = bench.crowd(3, CACHE_BUDGET)
    budget = CACHE_BUDGET * len(guests) // 3
    with bench.town(len(guests) * CACHE_MEMORY) as town:
        disk = disk_of(town.host.folder)
        for name in guests:
            town.members.append(Member(town.host, town.vmm, name, CACHE_MEMORY, disk=disk))
            town.members[-1].boot()
            read_files(town.members[-1])
        before = town.host.guests()
        demand(not any(it["target"] for it in before.values()), f"something is asked for: {before}")
        town.host.demand(f"budget {budget}")
        # What they have together, less the budget, by pencil; each of them gives a part.
        lack = sum(it["pages"] for it in before.values()) - budget * PAGES_PER_MIB
        await_rest(town, budget, limit=REACHED_IN)
        seen = town.host.guests()
        demand(
            sum(it["ballooned"] for it in seen.values()) >= lack,
            f"{lack} pages are missing: {seen}",
        )
        demand(town.host.counters()["short"] == 0, f"the host is short: {town.host.counters()}")
        held = sum(town.sample().held) - sum(outside(town))
        demand(held <= budget, f"{held:.0f} MiB are held of {budget}")
        finish(town)
        given = " ".join(str(it["ballooned"] // PAGES_PER_MIB) for it in seen.values())
        return (
            f"{len(guests)} guests with {CACHE} MiB of page cache each give {given} MiB; "
            f"{held:.0f} of {budget} MiB are held"
        )
