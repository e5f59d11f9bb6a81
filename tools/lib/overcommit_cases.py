"""Single cases of a strict host with three guests, of which two are idle: how much page cache the
third keeps that it reads again and again, and how long it waits for pages that the others have."""

import os
import time

from linux_host import Town
from overcommit_work import boot, longest_of, waits_of

# MiB of each guest, those that one of them reads again and for how many seconds, or that it fills;
# those in use by an idle one beside what each keeps, and a budget for all that.
MEMORIES, READ, SECONDS, FILLED, IDLE, ENOUGH = (256, 256, 256), 100, 10, 100, 20, 400

# Seconds in which the guests have given what the budget lacks.
SETTLED = 5


def cached_after(vmm, program, folder, is_warm):
    """Returns the MiB that the reader has cached in the end. Before the budget fell it had read all
    or nothing."""
    os.makedirs(folder)
    with Town(vmm, program, folder, sum(MEMORIES), ("--strict",)) as town:
        boot(town, folder, MEMORIES, READ)
        reader, *idle = town.members
        for it in idle:
            it.fill("idle", IDLE)
        read = f"dd if=/dev/ubda of=/dev/null bs=1M count={READ} 2> /dev/null"
        if is_warm:
            reader.guest.do(read)
        town.host.demand(f"budget {ENOUGH}")
        end = time.monotonic() + SECONDS
        while time.monotonic() < end:
            reader.guest.do(read)
        (cached,) = reader.guest.do("grep ^Buffers: /proc/meminfo")
        town.finish()
    return int(cached.split()[1]) // 1024


def longest_wait(vmm, program, folder):
    """Returns how many waits there are as a guest fills its memory, and the milliseconds that each
    is shorter than."""
    os.makedirs(folder)
    with Town(vmm, program, folder, sum(MEMORIES), ("--strict",)) as town:
        boot(town, folder, MEMORIES)
        town.host.demand(f"budget {ENOUGH}")
        time.sleep(SETTLED)
        before = waits_of(town)
        town.members[0].guest.do(f"fill work {FILLED}")
        waits = waits_of(town, before)
        longest = longest_of(town, waits)
        town.finish()
    return sum(waits), longest


def print_cases(vmm, program, folder):
    """Prints a line for each case; returns the status."""
    for name, is_warm in (("warm", True), ("cold", False)):
        mib = cached_after(vmm, program, os.path.join(folder, name), is_warm)
        print(f"{name}: {mib} of {READ} MiB are cached", flush=True)
    waits, longest = longest_wait(vmm, program, os.path.join(folder, "fill"))
    print(f"{FILLED} MiB are filled: {waits} waits, each shorter than {longest:.0f} ms")
    return 0
