"""What a host counts rises alone: over guests' processes that others go on for, over lenders, and
over clients that go and come, but for what begins with these."""

import os
import signal

import pytest
from hosts import Answering, Host
from vhost_client import DEFLATE, INFLATE, PAGE, REGIONS, REPORT, WRITE
from waiting import eventually, patience_from_now

# Each counter, by when it begins at 0: with a lender; with a client of a guest, which its process
# counts; with both.
OF_LENDERS, OF_CLIENTS, OF_BOTH = {"lender"}, {"client"}, {"lender", "client"}
HOST = dict.fromkeys(
    (
        "looks above peak decisions changed shorts admitted refused gone dropped shortages "
        "command_failures"
    ).split(),
    OF_LENDERS,
)
SOCKET = dict.fromkeys("accepted dropped turned_away requests refused".split(), OF_LENDERS)
MEASURES = dict.fromkeys("above gone waits ungranted decisions turns processor".split(), OF_LENDERS)
GUEST = {
    **dict.fromkeys(
        "inflated deflated reported taken discarded skipped statistics told chains kicks".split(),
        OF_CLIENTS,
    ),
    **dict.fromkeys("clients limit_failures refusals".split(), OF_LENDERS),
    **dict.fromkeys("granted lost".split(), OF_BOTH),
}

# Pages that each guest gives, takes back and reports, of its second region, and of those that it
# takes the ones that the host wants back.
WORK = {"strict": (20, 7, 4, 2), "free": (24, 11, 3, 1)}
FIRST = REGIONS[1][0] // PAGE

# What has counted something of a guest that did so.
SOME = ("statistics", "told", "chains", "kicks", "clients")
TERMS = {
    "strict": {"strict": True, "least": 3 * PAGE, "priority": 9, "overhead": 5 * PAGE},
    "free": {"most": 200 * PAGE, "priority": 4, "memory": 900 * PAGE},
}


def numbers(value, name=()):
    """Yields each number of a part of an answer, with its name."""
    if isinstance(value, (dict, list)):
        for key, it in value.items() if isinstance(value, dict) else enumerate(value):
            yield from numbers(it, (*name, key))
    else:
        yield name, value


def counters(host):
    """Returns each counter, by the part of the status that has it and its name; each has a row."""
    status = host.ask("status")
    its = status["host"]
    sockets = {
        it: {name: count for name, count in its[it].items() if name != "clients"}
        for it in ("control", "status")
    }
    parts = {"host": (its["counters"], HOST), "measures": (its["measures"], MEASURES)} | {
        it: (value, SOCKET) for it, value in sockets.items()
    }
    parts |= {it["name"]: (it["counters"], GUEST) for it in status["guests"]}
    for values, rows in parts.values():
        assert values.keys() == rows.keys(), values.keys() ^ rows.keys()
    return {
        (name, *it): (value, rows[it[0]])
        for name, (values, rows) in parts.items()
        for it, value in numbers(values)
    }


def wanted_of(name):
    """Returns what a guest has counted that did so, in pages."""
    given, taken, reported, wanted = WORK[name]
    return {
        "inflated": given,
        "deflated": taken,
        "reported": reported,
        "taken": taken - wanted,
        "discarded": given + reported,
        "skipped": 0,
    }


def set_target(host, name, pages):
    """Sets a guest's target, and waits until it was told."""
    told = host.guest(name)["counters"]["told"]
    host.ask("guest", name=name, target=pages * PAGE)
    eventually(lambda: host.guest(name)["counters"]["told"] > told, lambda: host.guest(name))


def work(host, name):
    """Has a guest's client come, give pages, take some of them, and report others; returns it."""
    given, taken, reported, wanted = WORK[name]
    guest = Answering(host, name)
    eventually(lambda: host.guest(name)["answers"])
    guest.stop()
    for queue, target, count, left in (INFLATE, given, given, given), (
        DEFLATE,
        given - wanted,
        taken,
        given - taken,
    ):
        set_target(host, name, target)
        guest.client.post_pages(queue, [FIRST + it for it in range(count)])
        eventually(
            lambda left=left: host.guest(name)["ballooned"] == left * PAGE, lambda: host.guest(name)
        )
    guest.client.describe(REPORT, 0, REGIONS[1][0] + 30 * PAGE, reported * PAGE, WRITE)
    guest.client.publish(REPORT, 0)
    guest.client.kick(REPORT)
    eventually(lambda: host.guest(name)["counters"]["reported"], lambda: host.guest(name))
    return guest


class Town:
    """A host with a guest whose deflates wait, and one whose deflates don't, and what may come over
    it."""

    def __init__(self, program, folder):
        self.program, self.folder = program, folder
        self.begin()
        for name, terms in TERMS.items():
            self.host.ask("add", name=name, **terms)
        self.come()

    def begin(self):
        """Starts a lender."""
        self.host = Host(
            self.program,
            self.folder,
            str(self.folder),
            "--budget",
            "480",
            "--floor",
            "0",
            "--period",
            "100",
        )
        self.host.lines.next(patience_from_now())

    def come(self):
        """Has the clients come, and work."""
        self.guests = {it: work(self.host, it) for it in WORK}

    def process(self, name):
        """Returns the process that serves a guest."""
        return self.host.guest(name)["process"]

    def until_others_serve(self, act):
        """Does something to each guest after which another process serves it."""
        for name in self.guests:
            before = self.process(name)
            act(name, before)
            eventually(lambda: self.process(name) not in (0, before), lambda: self.host.guest(name))

    def renew(self):
        """Has other processes go on."""
        self.until_others_serve(lambda name, _: self.host.ask("renew", name=name))

    def kill_processes(self):
        """Kills the processes; others go on."""
        self.until_others_serve(lambda _, process: os.kill(process, signal.SIGKILL))

    def kill_lender(self):
        """Kills the lender; another takes over."""
        self.host.process.kill(), self.host.process.wait()
        self.begin()
        eventually(lambda: all(map(self.process, self.guests)))

    def go(self):
        """Has the clients go."""
        while self.guests:
            name, guest = self.guests.popitem()
            guest.leave()
            eventually(lambda name=name: self.host.guest(name)["state"] == "absent")

    def end(self):
        """Ends all."""
        self.go()
        assert self.host.end() == 0


@pytest.fixture
def town(program, folder):
    it = Town(program, folder)
    yield it
    it.end()


# What comes over a host, one after the other, and the counters that begin then.
EVENTS = (
    (Town.renew, set()),
    (Town.kill_processes, set()),
    (Town.kill_lender, {"lender"}),
    (Town.renew, set()),
    (Town.go, {"client"}),
    (Town.come, {"client"}),
    (Town.kill_processes, set()),
)


def test_no_counter_falls(town):
    before = counters(town.host)
    for act, begins in EVENTS:
        act(town)
        after = counters(town.host)
        fallen = {
            name: (value, after[name][0])
            for name, (value, row) in before.items()
            if not row & begins and after[name][0] < value
        }
        assert not fallen, (act.__name__, fallen)
        before = after


def test_what_a_guest_has_counted(town):
    for each in range(2):
        for name in WORK:
            found = town.host.guest(name)["counters"]
            assert {it: found[it] // PAGE for it in wanted_of(name)} == wanted_of(name) and found[
                "clients"
            ] == 1 + each, found
            assert all(found[it] > 0 for it in SOME) and (found["granted"] > 0) == (
                name == "strict"
            ), found
        town.go(), town.come()


def test_what_a_host_says_of_all_guests(town):
    eventually(lambda: town.host.status()["silent"] == 2, town.host.status)
    status = town.host.ask("status")
    host, guests = status["host"], status["guests"]
    assert [it["cooperates"] for it in guests] == [True, False] and [
        it["answers"] for it in guests
    ] == [False, False]
    assert [host[it] for it in ("guests", "silent", "uncooperative", "waiting", "missing")] == [
        2,
        2,
        1,
        0,
        0,
    ]
    assert [host[it] for it in ("held", "lent")] == [
        sum(guest[it] for guest in guests) for it in ("held", "loan")
    ]
    assert host["counters"]["peak"] >= host["held"] > 0 and host["lent"] > 0


# Words of the lines of standard output, by what an answer has in their place, and how many of its
# unit each counts.
KIB = 1024
OF_GUESTS = {
    **{it: (f"counters.{it}", PAGE) for it in ("inflated", "deflated", "reported", "taken")},
    "statistics": ("counters.statistics", 1),
    **{it: (it, PAGE) for it in ("ballooned", "target", "free", "spare", "available")},
    "pages": ("memory", PAGE),
    "lent": ("loan", PAGE),
    "held_kib": ("held", KIB),
    "limit": ("limit", PAGE),
    "limit_failures": ("counters.limit_failures", 1),
    "process": ("process", 1),
    **{it: (f"terms.{it}", PAGE) for it in ("least", "most", "overhead")},
    **{it: (f"terms.{it}", 1) for it in ("priority", "weight")},
    **{it: (it, 1) for it in ("answers", "reports", "pressed")},
    "waits": ("waits_for", 1),
}
OF_HOST = {
    "frames": ("budget", PAGE),
    "floor": ("floor", PAGE),
    "short": ("missing", PAGE),
    "held_kib": ("held", KIB),
    "lent": ("lent", PAGE),
    "peak_kib": ("counters.peak", KIB),
    "tier": ("tier", 1),
    **{
        it: (f"counters.{it}", 1)
        for it in "looks above decisions changed shorts admitted refused gone dropped".split()
    },
}
OF_DECISIONS = {
    "ms": ("seconds", 0.001),
    "frames": ("budget", PAGE),
    "floor": ("floor", PAGE),
    "short": ("missing", PAGE),
    "tier": ("tier", 1),
}
OF_SHARES = {"pages": ("memory", PAGE), **{it: (it, PAGE) for it in ("spare", "old", "target")}}
# What only a line has.
MORE = {
    "guests": {"here", "ready", "asked", "cooperates"},
    "counters": {"grants"},
    "log": {"unused", "cached", "most", "ballooned", "by"},
}


def lines_of(host, word):
    """Asks for a line, or for as many as the first one says; returns them."""
    host.process.stdin.write(f"{word}\n".encode()), host.process.stdin.flush()
    head = host.lines.next(patience_from_now())
    return (
        [host.lines.next(patience_from_now()) for _ in range(int(head.split()[1]))]
        if word in ("guests", "log")
        else [head]
    )


def agrees(words, rows, answer, more):
    """Demands that what a line says is what an answer has."""
    said = dict(zip(words[::2], words[1::2]))
    assert said.keys() == rows.keys() | more, said.keys() ^ (rows.keys() | more)
    for name, (place, unit) in rows.items():
        found = answer
        for it in place.split("."):
            found = found[it]
        wanted = (
            str((1 << 32) - 1)
            if found is None
            else found
            if isinstance(found, str)
            else str(round(found / unit))
        )
        assert said[name] == wanted, (name, said[name], found)


def test_lines_say_what_answers_do(town):
    town.host.ask("budget", bytes=200 * PAGE)
    eventually(lambda: town.host.status()["counters"]["shorts"] > 0)
    for _ in range(20):
        looks = town.host.status()["counters"]["looks"]
        lines, guests = lines_of(town.host, "counters"), lines_of(town.host, "guests")
        status, log = town.host.ask("status"), lines_of(town.host, "log")
        if status["host"]["counters"]["looks"] == looks:
            break
    agrees(lines[0].split(), OF_HOST, status["host"], MORE["counters"])
    for line, answer in zip(guests, status["guests"]):
        name, *words = line.split()
        assert name == answer["name"]
        agrees(words, OF_GUESTS, answer, MORE["guests"])
    for line, decision in zip(log, town.host.ask("log")["decisions"]):
        head, *shares = (it.split() for it in line.split(" | "))
        agrees(head[:-3], OF_DECISIONS, decision, set())
        assert head[-3:] == ["why", decision["reason"], decision["guest"] or "-"]
        for words, answer in zip(shares, decision["shares"]):
            agrees(words[1:], OF_SHARES, answer, MORE["log"])
