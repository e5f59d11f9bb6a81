"""What tests demand of a host of many guests: the rule of targets, worked out once more, and a host
at rest."""

import os
import time

from linux_guest import PAGES_PER_MIB
from linux_kit import demand

# Seconds in which a host has come to rest, and in which one that is wrong would have.
REST_LIMIT, WRONG_LIMIT = 20, 8

# What Linux does meanwhile: MiB by which two words for one thing may differ.
SLACK = 2

# Seconds of a period of the host, with what a look takes; and in which a guest gives what it is
# asked for.
PERIOD, GIVEN_IN = 0.25, 5


def eventually(condition, words, limit=REST_LIMIT):
    """Waits until a condition holds; `words` says what there was instead."""
    end = time.monotonic() + limit
    while not condition():
        demand(time.monotonic() < end, words() if callable(words) else words)
        time.sleep(0.05)


def files_of(process):
    """Returns how many files a process has open."""
    return len(os.listdir(f"/proc/{process}/fd"))


# Up to which tier guests give, and what of a guest's share that is.
TIERS = {"none": None, "unused": "unused", "cache": "cached", "reserve": "spare"}


def tier_of(shares, lack):
    """Returns the first tier that suffices."""
    given = {tier: sum(it[key] for it in shares) if key else 0 for tier, key in TIERS.items()}
    return next((tier for tier, pages in given.items() if pages >= lack), "short")


def most_of(share, floor):
    """Returns what a guest may be asked for while its old target serves: what it can spare, and an
    eighth of the floor. Of one that is silent, or took pages itself just now, it is no more than
    what is in its balloon; of one that waits for pages what it can spare.
    """
    ballooned = min(share["ballooned"], share["pages"])
    limits = {
        "statistics": share["pages"],
        "silence": ballooned,
        "pause": ballooned,
        "loan": share["spare"],
        "pressure": share["pages"],
    }
    return min(share["spare"] + floor // 8, limits[share["by"]])


def check_decision(said, shares):
    """Demands that a decision is what the rule says of what the guests can give: they give enough,
    and no more than they can."""
    its, where = list(shares.values()), f"{said}: {shares}"
    lack = max(0, sum(it["pages"] for it in its) - said["frames"])
    demand(said["tier"] == tier_of(its, lack), f"{where}: the tier is {tier_of(its, lack)}")
    short = max(0, lack - sum(it["spare"] for it in its))
    demand(said["short"] == short, f"{where}: short by {short}")
    for name, it in shares.items():
        most = most_of(it, said["floor"])
        # Of a guest that has less than its floor a part of the eighth is left.
        demand(
            it["spare"] <= it["most"] <= most if it["spare"] == 0 else it["most"] == most,
            f"{where}: {name} may be asked for {most} pages",
        )
    if short:
        return
    asked = sum(it["target"] for it in its)
    demand(asked >= lack, f"{where}: the targets are too little")
    demand(all(it["target"] <= it["most"] for it in its), f"{where}: a target is too much")


def check_decisions(town):
    """Demands that each decision since the last time is what the rule says; returns how many there
    were."""
    decisions = town.host.decisions()
    for said, shares in decisions:
        check_decision(said, shares)
    return len(decisions)


def finish(town):
    """Demands what holds at the end of each run."""
    killed = town.finish()
    demand(
        killed == 0,
        (
            f"{killed} lines of the guests' kernels: "
            f"{[it.killed()[:1] for it in town.members if it.guest]}"
        ),
    )
    check_decisions(town)


def window(sample):
    """Returns the seconds in which what guests took isn't known to the host yet: a period, and as
    long as a guest didn't tell."""
    return PERIOD + sample.silent


def growth(samples, of=sum):
    """Returns by how many MiB at most what the host holds grew before it knew of it, or one guest's
    part of it."""
    most = 0.0
    for number, it in enumerate(samples):
        before = [
            other.held for other in samples[:number] if it.seconds - other.seconds <= window(it)
        ]
        if of is sum:
            most = max(most, sum(it.held) - min(map(sum, before), default=sum(it.held)))
        else:
            most = max(
                most,
                *(
                    mib - min((other[k] for other in before), default=mib)
                    for k, mib in enumerate(it.held)
                ),
            )
    return most


def check_excess(samples, budget):
    """Demands that no more is held above the budget than guests are short by, are still to give,
    and took before the host knew of it; returns the most that is. What guests have outside of their
    balloons, less the budget, is by the rule what they are short by, with what of their targets
    isn't in their balloons yet."""
    most, excess = growth(samples), 0.0
    for number, it in enumerate(samples):
        before = [
            other.short + sum(other.owes)
            for other in samples[: number + 1]
            if it.seconds - other.seconds <= 2 * window(it)
        ]
        over = sum(it.held) - budget
        excess = max(excess, over)
        demand(
            over <= max(before) + most,
            (
                f"{over:.1f} MiB above the budget, short by and still to give {max(before):.1f}, "
                f"growth {most:.1f}"
            ),
        )
    return excess


def check_given(samples):
    """Demands that each guest gives what it is asked for in time; returns the most seconds for
    which one was below its target."""
    most, since = 0.0, {}
    for it in samples:
        for guest, owes in enumerate(it.owes):
            since[guest] = since.get(guest, it.seconds) if owes > 0 else it.seconds
            most = max(most, it.seconds - since[guest])
    demand(most <= GIVEN_IN, f"a guest was below its target for {most:.1f} seconds")
    return most


def names(count):
    """Returns names for `count` guests."""
    return [f"guest-{it + 1}" for it in range(count)]


def pages_moved(town):
    """Returns how many pages went into balloons, and out of them."""
    return sum(it["inflated"] + it["deflated"] for it in town.host.guests().values())


def unrest(town, budget, floor):
    """Returns what isn't at rest yet: targets that aren't reached or too few, or a guest without
    its floor. None: all is."""
    seen = town.host.guests()
    members = [it for it in town.members if it.guest]
    lack = sum(seen[it.name]["pages"] for it in members) - budget * PAGES_PER_MIB
    targets = sum(seen[it.name]["target"] for it in members)
    if targets < lack:
        return f"the targets are {targets} pages together, and {lack} are missing"
    for it in members:
        # The host goes by what a guest calls available, of which some holds files that Linux drops.
        if it.guest.available_mib() < floor - SLACK:
            return (
                f"{it.name} has {it.guest.available_mib():.1f} MiB available, and its floor is "
                f"{floor}"
            )
        if seen[it.name]["ballooned"] != seen[it.name]["target"]:
            return (
                f"{it.name} has {seen[it.name]['ballooned']} pages in its balloon, and its target "
                f"is {seen[it.name]['target']}"
            )
    return None


def stays(town):
    """Returns whether no target changes for eight periods."""
    before = town.host.counters()["changed"]
    time.sleep(8 * PERIOD)
    return town.host.counters()["changed"] == before


def await_rest(town, budget, floor=12, limit=REST_LIMIT):
    """Demands that the host comes to rest, and stays there, also where kernels of guests still did
    something."""
    eventually(
        lambda: not unrest(town, budget, floor) and stays(town),
        lambda: (
            unrest(town, budget, floor)
            or f"targets change while nothing moves: {town.host.decisions()[-1:]}"
        ),
        limit * town.vmm.patience,
    )
    check_decisions(town)


def check_spares(town, floor=12):
    """Demands that what guests can spare is what they call available themselves and have in the
    balloon, less the floor, and that the host counts what their memory files hold."""
    seen, held = town.host.guests(), sum(town.sample().held)
    counted = town.host.counters()["held_kib"] / 1024
    demand(
        abs(held - counted) <= SLACK,
        f"the files hold {held:.1f} MiB, and the host counts {counted:.1f}",
    )
    for it in town.members:
        own = (
            it.guest.available_mib() + seen[it.name]["ballooned"] / PAGES_PER_MIB - floor
            if it.guest
            else 0
        )
        spare = seen[it.name]["spare"] / PAGES_PER_MIB
        demand(
            abs(spare - max(0, own)) <= SLACK,
            f"{it.name} can spare {own:.1f} MiB, and the host says {spare:.1f}",
        )
