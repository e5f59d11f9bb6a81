"""The runs of a Linux whose free page hints the host asks for, in rounds (VIRTIO 1.2, 5.5.6.6).
What is hinted is discarded."""

import time

from linux_kit import demand
from linux_runs import LEFT_FREE, REPORT_LIMIT, Run, audit, fill_memory, finish, keep

# The driver hints blocks of 4 MiB: MiB of what is free that may lie in no whole block, or that it
# leaves to its kernel.
UNHINTED = 32

# MiB of a hog, at least, and of the guests that have room for it; rounds that end amid, and the
# longest rest before an end, in seconds.
HOG, ROOMY, AMID, MOST_REST = 150, (320, 384), 8, 0.1

# Without reports, which give the same memory back.
WITHOUT_REPORTS = ("--features", "100000007", "--hints", "--discard-hints")


def order(machine, line):
    """Has the host begin, stop or end a round; returns the answer."""
    answer = machine.backend.ask(f"hint {line}")
    demand(answer == "ok" or answer.startswith("round "), f"hint {line} is answered: {answer}")
    return answer


def becomes(machine, what, condition):
    """Demands that this becomes so in time; it says what is."""
    end = machine.end_of(REPORT_LIMIT)
    while not (said := condition())[0]:
        demand(time.monotonic() < end, f"{what}: {said[1]}")
        time.sleep(0.1)


def has_free(machine, mib):
    """Whether the guest has at least this many MiB free, and how many it has."""
    free = machine.guest.memory_mib()[1]
    return free >= mib, f"{free:.0f} MiB are free of {mib:.0f}"


def holds(machine, most):
    """Whether the host holds at most this many MiB, and how many it holds."""
    held = machine.guest.held_mib()
    return (
        held <= most,
        (
            f"the host holds {held:.0f} MiB, and at most {most:.0f} are wanted: "
            f"{machine.backend.counters()}"
        ),
    )


def hinted(machine):
    """Demands that pages were hinted; returns words about them."""
    counters = machine.backend.counters()
    demand(counters["hints_pages"] > 0, f"nothing was hinted: {counters}")
    return (
        f"{counters['hints_rounds']} rounds, {counters['hints_pages']} pages hinted, "
        f"{counters['hints_late']} late"
    )


def fill_and_free(machine):
    """Fills the guest's memory and frees it again; returns the MiB that were filled, and the MiB
    that are free then."""
    filled = fill_memory(machine)
    machine.guest.do("free")
    return filled, machine.guest.memory_mib()[1]


def hints_run(machine, _):
    """A hog is freed, and a round brings its memory back to the host; after DONE the guest fills
    its memory again."""
    kept, said = keep(machine, "keep", machine.memory // 6), []
    for number in range(2):
        filled, free = fill_and_free(machine)
        demand(filled >= HOG, f"the guest has only {filled} MiB to fill")
        before = machine.guest.held_mib()
        demand(order(machine, "start") == f"round {number + 2}", "a round has another's id")
        becomes(
            machine,
            "hinted memory doesn't come back",
            lambda free=free: holds(machine, machine.memory - free + UNHINTED),
        )
        held = machine.guest.held_mib()
        order(machine, "done")
        becomes(
            machine,
            "the driver keeps what it hinted",
            lambda free=free: has_free(machine, free - LEFT_FREE),
        )
        said.append(f"{before:.0f} to {held:.0f} MiB held, with {machine.memory - free:.0f} in use")
        audit(machine)
    machine.guest.do(f"hog {filled}")
    machine.guest.do("free")
    kept += keep(machine, "more", filled - LEFT_FREE)
    demand(machine.backend.counters()["hints_rounds"] == 2, "rounds aren't counted")
    finish(machine, kept)
    return f"{'; '.join(said)}; {hinted(machine)}"


def amid_run(machine, chance):
    """Rounds end amid, by DONE, by STOP or by the next one; reports go on beside them."""
    kept = keep(machine, "keep", machine.memory // 6)
    filled, free = fill_and_free(machine)
    for _ in range(AMID):
        order(machine, "start")
        time.sleep(chance.random() * MOST_REST)
        for line in chance.choice((("done",), ("stop", "done"), ("start", "done"))):
            order(machine, line)
        becomes(
            machine, "the driver keeps what it hinted", lambda: has_free(machine, free - LEFT_FREE)
        )
        if chance.random() < 0.5:
            machine.guest.do(f"hog {filled}")
            machine.backend.ask("snapshot")
            machine.guest.do("free")
        audit(machine)
    kept += keep(machine, "more", filled - LEFT_FREE)
    finish(machine, kept)
    return hinted(machine)


HINT_RUNS = {
    "hints": Run(hints_run, sizes=ROOMY, backend_words=WITHOUT_REPORTS),
    # With reports, whose queue is the fifth one.
    "amid": Run(amid_run, guest={"queues": 5}, backend_words=("--hints", "--discard-hints")),
}
