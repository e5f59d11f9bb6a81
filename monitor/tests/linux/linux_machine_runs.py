"""The runs of a Linux in a machine that is stopped, reset and plugged by the control socket of its
VMM, or that is larger."""

import time

from linux_guest import PAGES_PER_MIB
from linux_kit import demand
from linux_runs import (
    LEFT_FREE,
    TARGET_LIMIT,
    Run,
    audit,
    churn_run,
    fill_memory,
    finish,
    free_and_report,
    inflate_filled,
    keep,
    settle,
)

# Stops of the run `pause`; the longest rest before one, in seconds.
STOPS, MOST_REST = 12, 0.15

# Targets of the run `written`, and the pages of a request of Linux, after each of which it writes
# `actual`.
WRITTEN, REQUEST = 8, 256

# Tenths of what is free that are in the balloon when the device of the run `plug` is unplugged.
PLUGGED = (3, 5, 1, 4, 0)

MIB = 1 << 20

# MiB of memory that is plugged in: a block of Linux.
DIMM = 128

# The descriptors of the largest queue.
MOST_DESCRIPTORS = 1024

# MiB of a guest whose memory continues above 4 GiB, and the part of what is free that goes into its
# balloon: Linux keeps some of each zone.
LARGE, MOST = 4096, 0.9


def become(machine, what, condition):
    """Demands that the counters become so in time."""
    end = machine.end_of(TARGET_LIMIT)
    while not condition(counters := machine.backend.counters()):
        demand(time.monotonic() < end, f"{what}: {counters}")
        time.sleep(0.02)


def stop(machine):
    """Stops the machine: what is in its balloon stays, and nothing is served meanwhile."""
    machine.control.do("stop")
    become(machine, "a machine that is stopped has queues", lambda now: now["status"] == 0)
    before = machine.backend.counters()
    time.sleep(0.1)
    after = machine.backend.counters()
    moved = {
        name: (before[name], it)
        for name, it in after.items()
        if name != "messages" and it != before[name]
    }
    demand(not moved, f"a machine that is stopped is served: {moved}")


def go_on(machine):
    """Lets the machine go on."""
    machine.control.do("cont")
    become(machine, "a machine that continues has no device", lambda now: now["status"] == 15)


def pause_run(machine, chance):
    """The machine is stopped, and continues, while its balloon is filled or emptied."""
    kept = keep(machine, "keep", machine.memory // 6)
    fill_memory(machine)
    machine.guest.do("free")
    most, amid = int(machine.guest.memory_mib()[1]) - LEFT_FREE, 0
    for number in range(STOPS):
        machine.set_target(0 if number % 2 else most)
        time.sleep(chance.random() * MOST_REST)
        stop(machine)
        counters = machine.backend.counters()
        amid += counters["inflated"] - counters["deflated"] not in (0, most * PAGES_PER_MIB)
        go_on(machine)
        settle(machine, f"target {number + 1}, after a stop")
        audit(machine)
    demand(amid > 0, "no stop came amid an inflate or a deflate")
    machine.set_target(0)
    settle(machine, "the last target")
    finish(machine, kept)
    return f"{amid} of {STOPS} stops amid"


def written_run(machine, chance):
    """`actual` is what the driver has in its balloon: it writes it after each of its requests."""
    kept = keep(machine, "keep", machine.memory // 6)
    most, samples, before = (
        int(machine.guest.memory_mib()[1]) - LEFT_FREE,
        0,
        machine.backend.counters(),
    )
    for number in range(WRITTEN):
        machine.set_target(chance.randint(0, most))
        end = machine.end_of(TARGET_LIMIT)
        while (now := machine.backend.counters())["actual"] != now["target"]:
            demand(time.monotonic() < end, f"target {number + 1}: {now}")
            apart = abs(now["inflated"] - now["deflated"] - now["actual"])
            demand(
                apart <= REQUEST, f"`actual` is {apart} pages from what is in the balloon: {now}"
            )
            samples += now["actual"] not in (before["actual"], before["target"])
            time.sleep(0.005)
            before = now
    demand(samples > WRITTEN, f"only {samples} samples amid an inflate or a deflate")
    machine.set_target(0)
    settle(machine, "the last target")
    finish(machine, kept)
    return f"{samples} samples"


def plug_again(machine):
    """The device is unplugged, and the driver takes all pages out of its balloon; then it is
    plugged over the same connection."""
    machine.control.do("device_del", id="balloon")
    machine.control.await_event("DEVICE_DELETED", device="balloon")
    gone = (
        lambda now: now["status"] == 0 and now["actual"] == 0 and now["inflated"] == now["deflated"]
    )
    become(machine, "after the device was unplugged", gone)
    machine.control.do("device_add", **machine.vmm.device_words(machine.shape))
    become(machine, "a device that was plugged has no driver", lambda now: now["status"] == 15)


def plug_run(machine, _):
    """With each of some balloons the machine is stopped and continues, and the device is unplugged
    and plugged again: the balloon is what it was, and the guest has as much less memory by its own
    word."""
    kept = keep(machine, "keep", machine.memory // 6)
    filled = fill_memory(machine)
    free_and_report(machine, filled)
    # Pages aren't free for Linux while it reports them.
    become(
        machine,
        "what was filled isn't free again",
        lambda _: machine.statistics()["free_memory"] > filled * MIB,
    )
    for mib in (filled * part // 10 for part in PLUGGED):
        machine.set_target(mib)
        settle(machine, f"a balloon of {mib} MiB")
        stop(machine)
        go_on(machine)
        plug_again(machine)
        settle(machine, f"a balloon of {mib} MiB in a device that was plugged again")
        become(
            machine,
            "after the device was plugged",
            lambda now: now["inflated"] - now["deflated"] == mib * PAGES_PER_MIB,
        )
        free = machine.statistics()["free_memory"] // MIB
        demand(
            free < filled + LEFT_FREE * 2 - mib,
            f"with {mib} MiB of {filled} in the balloon {free} are free",
        )
        audit(machine)
    finish(machine, kept)


def dimm_run(machine, _):
    """Memory is plugged in, and goes into the balloon with the rest."""
    kept = keep(machine, "keep", machine.memory // 6)
    total, free = machine.guest.memory_mib()
    end, most = machine.backend.counters()["end"], int(free) - LEFT_FREE
    machine.set_target(most)
    settle(machine, "a balloon of what is free at first")
    machine.control.do(
        "object-add",
        **{"qom-type": "memory-backend-memfd", "id": "more", "size": DIMM << 20, "share": True},
    )
    machine.control.do("device_add", driver="pc-dimm", id="dimm", memdev="more")
    until = machine.end_of(TARGET_LIMIT)
    while machine.guest.memory_mib()[0] < total + DIMM // 2:
        demand(time.monotonic() < until, "the guest doesn't have the memory that was plugged in")
    demand(
        machine.backend.counters()["end"] > end,
        "the backend doesn't have the memory that was plugged in",
    )
    machine.set_target(most + DIMM * 3 // 4)
    settle(machine, "a balloon that has pages of the new memory")
    audit(machine)
    machine.set_target(0)
    settle(machine, "a deflate")
    # Files in memory may take a part of the memory that there was when they were mounted.
    machine.guest.do("mount -o remount,size=100% /t")
    kept += keep(machine, "more", most + DIMM // 2)
    finish(machine, kept)


def begin_anew(machine, how):
    """Has the guest restart with pages in its balloon: its driver begins with none, and reaches
    the target."""
    mib = machine.memory // 4
    inflate_filled(machine, mib)
    machine.control.do("set-action", reboot="reset")
    inflated = machine.backend.counters()["inflated"]
    how()
    machine.guest.boot()
    settle(machine, "the balloon of a guest that restarted")
    counters = machine.backend.counters()
    demand(
        counters["inflated"] - inflated == mib * PAGES_PER_MIB,
        f"after a guest restarted: {counters}",
    )
    machine.control.do("set-action", reboot="shutdown")
    audit(machine)
    machine.set_target(0)
    settle(machine, "a deflate")
    finish(machine, keep(machine, "keep", machine.memory // 6))


def reset_run(machine, _):
    """The machine is reset."""
    begin_anew(machine, lambda: machine.control.do("system_reset"))


def reboot_run(machine, _):
    """The guest reboots itself."""
    begin_anew(machine, lambda: machine.guest.begin("reboot -f"))


def large_run(machine, _):
    """Memory above 4 GiB goes into the balloon, and comes back."""
    kept = keep(machine, "keep", machine.memory // 16)
    mib = int(machine.guest.memory_mib()[1] * MOST)
    machine.set_target(mib)
    settle(machine, "a balloon of most of the memory")
    demand(machine.backend.counters()["end"] > 1 << 20, "no memory is above 4 GiB")
    demand(mib > LARGE // 2, f"{mib} MiB of the balloon may all be below 4 GiB")
    machine.set_target(0)
    settle(machine, "a deflate")
    finish(machine, kept)


MACHINE_RUNS = {
    "written": Run(written_run),
    "pause": Run(pause_run),
    "dimm": Run(dimm_run, guest={"pluggable": DIMM}),
    # A queue more than has a kind, as Linux 7.2 asks for.
    "plug": Run(plug_run, guest={"queues": 5}),
    "reset": Run(reset_run),
    "reboot": Run(reboot_run),
    "pair": Run(churn_run, guest={"processors": 2, "queues": 5, "queue_size": MOST_DESCRIPTORS}),
    "large": Run(large_run, sizes=(LARGE,)),
}
