"""The runs of a Linux on a backend: what a guest is told to do, and what is demanded of its device
and of the host's memory."""

import time
from collections.abc import Callable
from typing import NamedTuple

from linux_guest import PAGES_PER_MIB
from linux_kit import Fault, demand

# The guests' MiB. With less than 256, Linux reports nothing: it wants 128 MiB free in a zone before
# it does.
SIZES = (256, 384)

# Seconds in which a target is reached, in which a guest reports its free pages, and in which it
# moves some.
TARGET_LIMIT, REPORT_LIMIT, MOVE_LIMIT = 60, 30, 10

# The part that has to come back of what is inflated or reported; MiB that a hog leaves free, as
# Linux itself needs some.
COMES_BACK, LEFT_FREE = 0.9, 20

# Targets of the run `churn`.
TARGETS = 30


class DeviceFault(Fault):
    """What the build for tests saw in the device itself."""


def audit(machine):
    """Demands that the build for tests saw no fault in the device; returns how many entries it
    looked at."""
    numbers, first = machine.backend.ask("audit").split(" first ", 1)
    words = numbers.split()[1:]
    numbers = dict(zip(words[0::2], map(int, words[1::2])))
    if numbers["faults"]:
        raise DeviceFault(f"{numbers['faults']} faults of the device, the first: {first}")
    return numbers["entries"]


def settle(machine, what):
    """Demands that the target is reached."""
    demand(
        machine.settle(TARGET_LIMIT) is not None,
        f"{what}: not reached: {machine.backend.counters()}",
    )


def keep(machine, name, mib):
    """Has the guest keep random bytes; returns their sums."""
    machine.guest.do(f"take {name} {mib}")
    return machine.sums(name)


def fill_memory(machine):
    """Has the guest fill its memory, and notes what is no hole then; returns the MiB that were
    filled."""
    mib = int(machine.guest.memory_mib()[1]) - LEFT_FREE
    machine.guest.do(f"hog {mib}")
    machine.backend.ask("snapshot")
    return mib


def inflate_filled(machine, mib):
    """Inflates after a filled memory: what the host holds has to fall."""
    filled = fill_memory(machine)
    demand(filled >= mib, f"the guest has only {filled} MiB to fill")
    before = machine.guest.held_mib()
    machine.guest.do("free")
    machine.set_target(machine.backend.counters()["actual"] // PAGES_PER_MIB + mib)
    settle(machine, f"{mib} MiB more")
    fell = before - machine.guest.held_mib()
    demand(
        fell >= COMES_BACK * mib, f"{mib} MiB were inflated, and the host got {fell:.1f} MiB back"
    )
    audit(machine)


def free_and_report(machine, mib):
    """Frees the hog of `mib` MiB: most of them are reported, and the host holds less."""
    before, reported = machine.guest.held_mib(), machine.backend.counters()["reported"]
    machine.guest.do("free")
    end = machine.end_of(REPORT_LIMIT)
    # A report has blocks of 4 MiB, so some of what is free stays.
    while before - machine.guest.held_mib() < mib / 2 and time.monotonic() < end:
        time.sleep(0.1)
    fell = before - machine.guest.held_mib()
    told = (machine.backend.counters()["reported"] - reported) / PAGES_PER_MIB
    demand(
        fell >= mib / 2,
        f"{mib} MiB were free, {told:.1f} were reported, and the host got {fell:.1f} back",
    )
    audit(machine)


def finish(machine, kept):
    """Demands what holds at the end of each run."""
    names = [it.split()[1] for it in kept]
    sums = machine.sums(*names)
    demand(sums == kept, f"kept bytes have changed: {' '.join(sums)} was {' '.join(kept)}")
    trouble = machine.guest.do("trouble")
    demand(not trouble, f"the guest's kernel says: {' / '.join(trouble[:2])}")
    counters = machine.backend.counters()
    unwanted = {name: counters[name] for name in ("skipped", "in_holes", "kept") if counters[name]}
    demand(not unwanted, f"pages that aren't there: {unwanted}")
    audit(machine)


def main_run(machine, _):
    """A hog, reports, an inflate beside kept bytes, a deflate, and the hog again."""
    kept = keep(machine, "keep", machine.memory // 6)
    filled = fill_memory(machine)
    free_and_report(machine, filled)
    inflate_filled(machine, filled // 2)
    machine.guest.do(f"hog {filled // 2 - LEFT_FREE}")
    machine.backend.ask("snapshot")
    figures = machine.statistics()
    total, _ = machine.guest.memory_mib()
    demand(
        abs(figures["total_memory"] / 2**20 - total) < 4,
        f"statistics have other words for {total} MiB: {figures}",
    )
    machine.set_target(0)
    settle(machine, "a deflate")
    kept += keep(machine, "more", filled // 2 - LEFT_FREE)
    time.sleep(1)
    finish(machine, kept)


def churn_run(machine, chance):
    """Random targets."""
    kept = keep(machine, "keep", machine.memory // 6)
    fill_memory(machine)
    machine.guest.do("free")
    most = int(machine.guest.memory_mib()[1]) - LEFT_FREE
    for number in range(TARGETS):
        machine.set_target(chance.randint(0, most))
        if chance.random() < 0.3:
            time.sleep(chance.random() / 20)
            machine.set_target(chance.randint(0, most))
        settle(machine, f"target {number + 1}")
        if chance.random() < 0.3:
            machine.guest.do(f"hog {max(1, int(machine.guest.memory_mib()[1]) - LEFT_FREE)}")
            machine.guest.do("free")
        audit(machine)
    machine.set_target(0)
    settle(machine, "the last target")
    finish(machine, kept)


def oom_run(machine, _):
    """A process under the balloon that wants more than is left."""
    kept = keep(machine, "keep", machine.memory // 10)
    free = int(machine.guest.memory_mib()[1])
    target = free - free // 6
    inflate_filled(machine, free - free // 3)
    machine.set_target(target)
    settle(machine, "a balloon that leaves a sixth")
    machine.guest.do(f"process {free // 2}")
    demand(machine.backend.counters()["deflated"] > 0, "a process got memory that wasn't there")
    # Linux doesn't refill its balloon by itself: the device has to tell it again.
    settle(machine, "the balloon, once the process has gone")
    # Linux 7.2 hangs at its power-off where pages are in its balloon.
    machine.set_target(0)
    settle(machine, "a deflate")
    finish(machine, kept)


def unload_run(machine, _):
    """The driver comes and goes."""
    kept = keep(machine, "keep", machine.memory // 6)
    mib = machine.memory // 4
    inflate_filled(machine, mib)
    for _ in range(2):
        machine.guest.do("unload")
        counters = machine.backend.counters()
        # On PCI, Linux itself acknowledges the device that nobody drives.
        demand(
            counters["status"] in (0, 1) and counters["actual"] == 0, f"after an unload: {counters}"
        )
        # The target is set: the driver inflates as soon as it is there.
        machine.guest.do("load")
        settle(machine, "the balloon of a driver that was loaded again")
        audit(machine)
    machine.set_target(0)
    settle(machine, "a deflate")
    finish(machine, kept)


def zeroed_run(machine, _):
    """The kernel wants zeros in the pages that it frees: with PAGE_POISON it says so, and
    reports."""
    kept = keep(machine, "keep", machine.memory // 6)
    filled = fill_memory(machine)
    free_and_report(machine, filled)
    inflate_filled(machine, filled // 2)
    machine.set_target(0)
    settle(machine, "a deflate")
    finish(machine, kept)


def migrated(machine):
    """Returns how many ballooned pages the guest's kernel has moved."""
    return int(machine.guest.do("migrated")[0].split()[1])


def compact_run(machine, _):
    """Ballooned pages lie between free ones, and the kernel moves them together."""
    kept = keep(machine, "keep", machine.memory // 6)
    free = int(machine.guest.memory_mib()[1]) - LEFT_FREE
    machine.guest.do(f"pieces {free * 2}")
    machine.backend.ask("snapshot")
    machine.guest.do("thin")
    machine.set_target(free // 2)
    settle(machine, "a balloon between pieces")
    machine.guest.do("clear")
    before, moved = migrated(machine), 0
    end = machine.end_of(MOVE_LIMIT)
    while moved == 0 and time.monotonic() < end:
        machine.guest.do("compact")
        moved = migrated(machine) - before
    demand(moved > 0, "compaction moved no page of the balloon")
    audit(machine)
    machine.set_target(0)
    settle(machine, "a deflate")
    finish(machine, kept)
    return f"{moved} pages moved"


class Run(NamedTuple):
    """What is done in a run, with guests of which MiB, and what guest and backend are given
    besides."""

    do: Callable
    sizes: tuple = SIZES
    guest: dict = {}
    backend_words: tuple = ()


RUNS = {
    "main": Run(main_run),
    "churn": Run(churn_run),
    "oom": Run(oom_run),
    "unload": Run(unload_run),
    "compact": Run(compact_run),
    # The device offers PAGE_POISON, too.
    "zeroed": Run(
        zeroed_run,
        guest={"kernel_words": ("init_on_free=1",)},
        backend_words=("--features", "100000037"),
    ),
}
