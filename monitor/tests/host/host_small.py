"""Runs of a host without any Linux: what it answers to lines, and targets that are worked out by
hand. Its guests are clients of 128 pages."""

import os
import select
import struct
import subprocess
import time

from host_checks import check_decisions, eventually
from linux_guest import PAGES_PER_MIB
from linux_host import pairs
from linux_kit import built, demand
from vhost_client import (
    BUFFERS,
    DEFLATE,
    INFLATE,
    NO_LINES,
    NO_NUMBERS,
    PAGE,
    REGIONS,
    STATISTICS,
    Client,
)

FREE_MEMORY = 4

# The first page of the second region.
PAGES = REGIONS[1][0] // PAGE

# Command lines that are none.
COMMANDS = (
    (),
    ("folder",),
    ("--budget", "5"),
    ("folder", "--budget", "x"),
    ("folder", "--budget", "0"),
    ("folder", "--budget", "5", "--period", "9"),
    ("folder", "--budget", "5", "--features", "8"),
    ("a", "b", "--budget", "5"),
    *(("folder", "--budget", it) for it in (*NO_NUMBERS, "16777216")),
)

# Lines, and how each answer begins; `a` is a name of a guest that never came.
LINES = (
    ("", "error"),
    ("log", "log 0"),
    ("add", "error"),
    ("add a", "listening"),
    ("add a", "error: a: "),
    ("add b c", "error"),
    ("add ", "error"),
    ("add " + 32 * "x", "error"),
    ("add " + 31 * "x", "listening"),
    ("add ../a", "error"),
    ("budget", "error"),
    ("budget x", "error"),
    ("budget 5 ", "error"),
    ("budget 5", "ok"),
    ("floor 0", "ok"),
    ("floor 16777216", "error"),
    ("a counters", "error: nobody is there"),
    ("b counters", "error: add"),
    ("remove b", "error: no guest"),
    ("remove a", "ok"),
    ("a counters", "error: add"),
    ("guests x", "error"),
    ("frames", "error"),
    *((f"{it}budget 7", "error: add") for it in NO_LINES),
    ("budget 7\0", "error: add"),
    (600 * "x", "error"),
    ("floor 0", "ok"),
    *(
        (f"{word} {it}", "error: a number of MiB")
        for word in ("budget", "floor")
        for it in (*NO_NUMBERS, "16777216")
    ),
)
from waiting import PATIENCE, patience_from_now


class Talker(Client):
    """A client that answers each question for statistics by how many pages it calls free."""

    def __init__(self, path, why, free):
        super().__init__(path, why)
        self.free, self.tag, self.name = free, FREE_MEMORY, os.path.basename(path)
        self.start()
        self.tell()

    def tell(self):
        """Posts statistics."""
        data = struct.pack("<HQ", self.tag, self.free * PAGE)
        self.write(BUFFERS + PAGE, data)
        self.describe(STATISTICS, 0, BUFFERS + PAGE, len(data))
        self.publish(STATISTICS, 0)
        self.kick(STATISTICS)

    def tell_again(self, town):
        """Answers a question that is asked by a line."""
        demand(town.host.ask(f"{self.name} ask") == "asked", f"{self.name} isn't asked")
        end = patience_from_now()
        while self.told() != STATISTICS:
            demand(time.monotonic() < end, f"{self.name} isn't told that it is asked")
        self.tell()

    def answer(self):
        """Answers a question, if there is one."""
        while select.select([self.own], [], [], 0)[0]:
            if self.told(PATIENCE) == STATISTICS:
                self.tell()


def told_three_times(client):
    """A client is told of its target, and reminded, since its balloon stays off it."""
    told, end = 0, time.monotonic() + 2
    while told < 3:
        demand(time.monotonic() < end, f"the client is told {told} times of its target")
        if not select.select([client.own], [], [], 0.1)[0]:
            continue
        if client.told() == STATISTICS:
            client.tell()
        else:
            told += 1


def decisions_are_kept(town):
    """Each change of the budget is a decision; of more than 512 since the last `log` the last ones
    are there."""
    town.host.decisions()
    for mib in range(7, 7 + 600):
        town.host.demand(f"budget {mib}")
    frames = [(said["frames"], said["why"]) for said, _ in town.host.decisions()]
    wanted = [(mib * PAGES_PER_MIB, "budget") for mib in range(7 + 600 - 512, 7 + 600)]
    demand(
        frames == wanted,
        f"600 budgets, and the log has {len(frames)} decisions, the last {frames[-1:]}",
    )
    demand(town.host.decisions() == [], "the log has decisions a second time")
    town.host.demand("budget 5")


def lines_run(bench):
    """Command lines, and lines of the control pipe."""
    for words in COMMANDS:
        ran = subprocess.run(
            [built("checked/vhost_user_host"), *words],
            stdin=subprocess.DEVNULL,
            capture_output=True,
            timeout=PATIENCE,
        )
        demand(
            (ran.returncode, ran.stdout) == (2, b""),
            f"{words}: status {ran.returncode}, {ran.stdout}",
        )
    with bench.town(5, checked=True) as town:
        for line, answer in LINES:
            said = town.host.ask(line)
            demand(said.startswith(answer), f"{line!r} is answered {said!r}")
        seen = [town.host.ask(f"add guest-{it}").split()[0] for it in range(64)]
        demand(seen == 63 * ["listening"] + ["error:"], f"64 guests beside one: {seen}")
        decisions_are_kept(town)
        client = Talker(f"{town.host.folder}/guest-1", town.host.why, 60)
        whys = [said["why"] for said, _ in town.host.decisions()]
        demand(
            whys[:2] == ["budget", "guests"], f"a guest came, and the host has decided by {whys}"
        )
        said = town.host.in_parts(b"coun", b"ters\ncounters\n")
        demand(all(it.startswith("frames ") for it in said), f"lines in parts are answered {said}")
        for line, answer in (
            ("quit", "error: quit"),
            ("statistics", "statistics 1 free_memory 245760"),
            ("x", "error"),
            ("target 5", "ok"),
        ):
            said = town.host.ask(f"guest-1 {line}")
            demand(said.startswith(answer), f"guest-1 {line!r} is answered {said!r}")
        told_three_times(client)
        client.leave()
    return f"{len(COMMANDS)} command lines, {len(LINES)} lines"


def targets_of(town):
    """Returns the targets of all guests."""
    return tuple(it["target"] for it in town.host.guests().values())


def targets_become(town, clients, wanted):
    """Answers all questions until the targets are these, and for a while after that, in which they
    have to stay so."""

    def targets():
        for it in clients:
            it.answer()
        return targets_of(town)

    eventually(
        lambda: targets() == wanted,
        lambda: f"the targets are {targets()}, and should be {wanted}",
        5,
    )
    looks = town.host.counters()["looks"]
    while town.host.counters()["looks"] < looks + 5:
        demand(
            targets() == wanted, f"the targets have become {targets()}, and should stay {wanted}"
        )


def refuse_third(town, clients):
    """Two guests of 128 pages, who can spare 100 pages, have no room for one more on 256 frames."""
    targets_become(town, clients, (0, 0, 0))
    refused = Client(f"{town.host.folder}/c", town.host.why)
    try:
        refused.start()
    except (OSError, AssertionError, struct.error):
        pass  # its socket is closed
    eventually(
        lambda: town.host.counters()["refused"] == 1, "a guest without room isn't refused", 5
    )
    refused.leave()
    said = town.host.why_of("c")
    demand(said == "refused c: no room for 512K: 112K are missing", said)
    eventually(
        lambda: town.host.counters()["held_kib"] == 1024,
        lambda: f"two guests hold 512 KiB each: {town.host.counters()}",
        5,
    )


def worked_run(bench):
    """Three guests of 128 pages on 256 frames, without a floor and a reserve: 128 pages are
    missing, and what the guests needn't give of what they can stays to them in equal parts."""
    with bench.town(1, ("--floor", "0", "--reserve", "0"), checked=True) as town:
        paths = [town.host.add(it) for it in "abc"]
        clients = [Talker(path, town.host.why, free) for path, free in zip(paths, (40, 60))]
        refuse_third(town, clients)
        clients[0].free, clients[1].free = 60, 70
        eventually(
            lambda: [it.answer() for it in clients] and town.host.guests()["b"]["spare"] == 70,
            "b doesn't tell 70 pages",
            5,
        )
        clients.append(Talker(paths[2], town.host.why, 0))
        # Of 60, 70 and 0 a page stays to each that has one.
        targets_become(town, clients, (59, 69, 0))
        # Of 60, 70 and 100 each keeps 34; the first two have a page, which is too little.
        clients[2].free = 100
        targets_become(town, clients, (26, 36, 66))
        # Of 10, 70 and 100 the first can't give its 26; the others keep 21.
        clients[0].free = 10
        targets_become(town, clients, (0, 49, 79))
        # The balloon counts as much as free pages do.
        clients[1].free = 21
        clients[1].post_pages(INFLATE, list(range(PAGES, PAGES + 49)))
        targets_become(town, clients, (0, 49, 79))
        # A guest that takes pages back has none free, whatever it has told before: of 10, 41 and
        # 100 each would keep 7. The second, which can't give its 49, does, the others a page more.
        clients[1].post_pages(DEFLATE, list(range(PAGES, PAGES + 8)))
        eventually(
            lambda: targets_of(town) == (2, 34, 92),
            lambda: f"after a deflate the targets are {targets_of(town)}",
            5,
        )
        clients[1].free = 0
        targets_become(town, clients, (2, 34, 92))
        demand(
            town.host.guests()["b"]["taken"] == 8,
            f"8 pages were taken back: {town.host.guests()['b']}",
        )
        short_by_hand(town, clients)
        clients.pop().leave()
        targets_become(town, clients, (0, 0, 0))
        # What the host asks a guest to take back isn't taken by itself.
        clients[1].post_pages(DEFLATE, list(range(PAGES + 8, PAGES + 49)))
        eventually(lambda: town.host.guests()["b"]["ballooned"] == 0, "b's balloon isn't empty", 5)
        seen, counted = town.host.guests()["b"], pairs(town.host.ask("b counters").split())
        demand(
            (seen["taken"], seen["inflated"], seen["deflated"]) == (8, 49, 49),
            f"b moved 49 pages, 8 of them by itself: {seen}",
        )
        demand(
            (counted["marked"], counted["unmarked"]) == (98, 0),
            f"49 pages went into b's set, and out of it: {counted}",
        )
        counters = town.host.counters()
        demand(
            counters["peak_kib"] == 1536 and 0 < counters["above"] < counters["looks"],
            f"three held 1536 KiB: {counters}",
        )
        decided = check_decisions(town)
        demand(
            decided == town.host.counters()["decisions"] > 0,
            f"the log has {decided} decisions: {town.host.counters()}",
        )
        for it in clients:
            it.leave()
    return f"{PAGES_PER_MIB} frames for three guests of 128 pages"


def short_by_hand(town, clients):
    """The guests can spare 10, 41 and 69 pages, so 8 are missing; and then 10, 41 and 100: each
    would keep 7. The first two, which had nothing left, do, and the third two more."""
    clients[2].free = 69
    targets_become(town, clients, (10, 41, 69))
    short = town.host.counters()["short"]
    demand(short == 8, f"the guests are short by 8 pages, and the host says {short}")
    clients[2].free = 100
    targets_become(town, clients, (3, 34, 91))
    demand(town.host.counters()["short"] == 0, "the host stays short")


def many_run(bench):
    """64 guests of 128 pages, who can spare 60 each, on 5,120 frames: 3,072 are missing, 48 of
    each."""
    with bench.town(40, ("--floor", "0"), checked=True) as town:
        clients = [Talker(town.host.add(f"guest-{it}"), town.host.why, 60) for it in range(64)]
        targets_become(town, clients, 64 * (0,))
        town.host.demand("budget 20")
        targets_become(town, clients, 64 * (48,))
        demand(
            town.host.counters()["changed"] == 64,
            f"64 targets have changed: {town.host.counters()}",
        )
        for it in clients:
            it.leave()
    return "64 clients, each asked for what it should give"
