"""Decisions and events of a host, by the control socket: who follows them, and who doesn't read."""

import json
import os
import socket
import threading
import time

import pytest
from bigvasta.connection import Connection
from bigvasta.statuses import Refused
from hosts import Raw, say
from test_control import MIB, PAGE
from waiting import PATIENCE, eventually

# Decisions that a host keeps; seconds by which two clocks differ, of which one has milliseconds.
MOST_DECISIONS, SLIGHTLY = 512, 0.01


def test_decisions_by_their_numbers(host, arrive):
    arrive("a"), arrive("b")
    eventually(lambda: all(host.guest(it)["answers"] for it in "ab"))
    host.ask("floor", bytes=0)
    host.ask("budget", bytes=156 * PAGE)
    eventually(lambda: [host.guest(it)["target"] for it in "ab"] == [50 * PAGE, 50 * PAGE])
    log = host.ask("log", since=0)
    last = next(it for it in log["decisions"] if it["budget"] == 156 * PAGE)
    assert (last["reason"], last["floor"], last["missing"]) == ("budget", 0, 0)
    # Each gives 50 of 54 unused pages, as 6 are its reserve.
    assert last["tier"] == "unused"
    assert last["shares"] == [
        {
            "guest": name,
            "memory": 128 * PAGE,
            "spare": 60 * PAGE,
            "old": 0,
            "target": 50 * PAGE,
            "pressed": False,
        }
        for name in "ab"
    ]
    assert [it["number"] for it in log["decisions"]] == list(range(log["next"]))
    assert host.ask("log", since=log["next"] - 1, limit=1)["decisions"] == log["decisions"][-1:]
    assert host.ask("log", since=10**15) == {
        "version": 1,
        "ok": True,
        "decisions": [],
        "next": log["next"],
        "lost": 0,
    }


def test_when_an_event_was(host):
    """Each has the time at which it is told, in seconds since 1970, whatever part of a second that
    is; a decision has the time of its own."""
    with Connection(host.control) as control:
        events, last = control.follow(), time.time()
        for number in range(5):
            host.ask("budget", bytes=(100 + number) * MIB)
            event = next(it for it in events if it["event"] == "decision")
            now = time.time()
            times = (event["decision"]["time"], event["time"])
            assert last - SLIGHTLY <= times[0] <= times[1] + SLIGHTLY <= now + 2 * SLIGHTLY
            last = now
            time.sleep(0.21)


def test_decisions_that_are_lost_are_counted(host):
    for it in range(520):
        host.ask("budget", bytes=(it + 1) * PAGE)
    decisions = eventually(
        lambda: host.status()["counters"]["decisions"] >= 520
        and host.status()["counters"]["decisions"]
    )
    log = host.ask("log", since=3, limit=2)
    first = decisions - MOST_DECISIONS
    assert log["lost"] == first - 3
    assert [it["number"] for it in log["decisions"]] == [first, first + 1]


def test_a_follower_hears_of_the_decisions_that_are_kept(host):
    """More is decided at once than is kept."""
    with Connection(host.control) as it:
        events, count = it.follow(), host.status()["counters"]["decisions"] + 4 * MOST_DECISIONS
        lines = "".join(f"floor {number % 2}\n" for number in range(4 * MOST_DECISIONS))
        host.process.stdin.write(lines.encode()), host.process.stdin.flush()
        eventually(lambda: host.status()["counters"]["decisions"] >= count)
        decided = (one["decision"]["number"] for one in events if one["event"] == "decision")
        heard = [next(decided)]
        while heard[-1] < count - 1:
            heard.append(next(decided))
    assert heard == sorted(set(heard)) and len(heard) < count


class Follower(threading.Thread):
    """Who follows a host until a guest is removed: `heard` are the events so far."""

    def __init__(self, host):
        super().__init__(daemon=True)
        self.connection, self.heard = Connection(host.control), []
        self.events = self.connection.follow()
        self.start()

    def run(self):
        """Listens."""
        for event in self.events:
            self.heard.append(event)
            if event["event"] == "removed":
                return

    def hears(self, name):
        """Waits for an event of this name."""
        eventually(
            lambda: name in [it["event"] for it in self.heard], lambda: f"no {name}: {self.heard}"
        )


def test_followers_hear_each_event_once_and_in_order(host, arrive):
    first, second = Follower(host), Follower(host)
    guest = arrive("a")
    first.hears("answers")
    host.ask("budget", bytes=100 * MIB)
    first.hears("budget")
    guest.leave()
    eventually(lambda: host.guest("a")["state"] == "absent")
    first.hears("gone")
    host.ask("remove", name="a", force=True)
    for it in first, second:
        it.join(PATIENCE)
    assert first.heard == second.heard
    assert [it["number"] for it in first.heard] == list(
        range(first.heard[0]["number"], first.heard[0]["number"] + len(first.heard))
    )
    names = [it["event"] for it in first.heard]
    # On a loaded machine its statistics may come late, and then it is silent for a while: so it
    # answers, is silent, answers, ..
    manners = [it for it in names if it in ("answers", "silent")]
    assert manners == ["answers", "silent"] * (len(manners) // 2) + ["answers"] * (
        len(manners) % 2
    ), manners
    others = [it for it in names if it not in ("changed", "decision", "state", *manners)]
    # A look may find it while it waits for the room that it is granted at once, and while it
    # leaves.
    waits = ["waits", "granted"] if "waits" in others else []
    assert others == ["added", "arrived", *waits, "budget", "gone", "removed"], names
    states = [it["state"] for it in first.heard if it["event"] == "state"]
    assert [it for it in states if it not in ("coming", "waiting", "starting")] in (
        ["ready"],
        ["ready", "leaving"],
    ), states
    assert any(
        it["event"] == "decision" and it["decision"]["budget"] == 100 * MIB for it in first.heard
    )
    for it in first, second:
        it.connection.close()


@pytest.mark.parametrize("ends", (b"", b"x" * 4096), ids=("by half", "by a line too long"))
def test_who_follows_may_say_no_more(host, ends):
    """It hears of events until it closes its socket; after a line that is too long of none."""
    raw = Raw(host.control)
    assert raw.answer(say(request="events"))["ok"]
    raw.socket.sendall(ends)
    raw.socket.shutdown(socket.SHUT_WR)
    if ends:
        assert json.loads(raw.lines.readline())["error"]["code"] == "too-long"
        assert raw.lines.readline() == b""
    else:
        host.ask("add", name="a")
        names = iter(lambda: json.loads(raw.lines.readline())["event"], "added")
        assert "removed" not in list(names)
    raw.close()
    eventually(lambda: host.status()["control"]["clients"] == 1, "it has its place yet")


def test_a_guest_that_is_removed_while_it_is_there_has_gone(host, arrive):
    follower, guest = Follower(host), arrive("a")
    follower.hears("answers")
    host.ask("remove", name="a", force=True)
    follower.join(PATIENCE)
    assert [it["event"] for it in follower.heard][-2:] == ["gone", "removed"]
    guest.stop()
    follower.connection.close()


def test_a_name_that_comes_back_is_a_new_guest_s(host):
    for _ in range(3):
        follower = Follower(host)
        host.ask("add", name="a")
        follower.hears("added")
        host.ask("remove", name="a", force=True)
        follower.hears("removed")
        follower.connection.close()


def test_twenty_clients_of_which_some_never_read_and_one_sends_trash(host, arrive):
    guest = arrive("a")
    eventually(lambda: host.guest("a")["answers"])
    mute, trash = [Raw(host.control) for _ in range(6)], Raw(host.control)
    trash.socket.setblocking(False)
    asking = [Connection(host.control) for _ in range(12)]
    follower = Raw(host.control)
    assert follower.answer(say(request="events"))["ok"]
    for it in mute:
        it.socket.setblocking(False)
    looks, slowest, sent = host.status()["counters"]["looks"], 0.0, 0
    begun = time.monotonic()
    # On a machine with other work it takes longer until they have left as much unread as they may.
    while time.monotonic() < begun + 5 or (
        time.monotonic() < begun + 40 and host.status()["control"]["dropped"] < 6
    ):
        for it in mute:
            try:
                sent += it.socket.send((say(request="status") + b"\n") * 50)
            except OSError:
                pass
        try:
            trash.socket.send(os.urandom(4000) + b"\n")
        except OSError:
            pass
        for it in asking:
            begin = time.monotonic()
            it.ask("status")
            slowest = max(slowest, time.monotonic() - begin)
    status = host.status()
    assert slowest < 3, f"a client waits for {slowest} s beside others that don't read"
    assert status["counters"]["looks"] - looks >= 3, "the host looks at its guests less often"
    assert status["control"]["dropped"] in (
        6,
        7,
    ), f"six that don't read, and maybe the one with trash: {status['control']}"
    assert host.guest("a")["answers"]
    guest.leave()
    for it in (*mute, trash, *asking, follower):
        it.close()
    eventually(lambda: host.status()["control"]["clients"] == 1)


def test_a_follower_that_does_not_read_is_dropped_and_counted(host):
    it = Raw(host.control)
    assert it.answer(say(request="events"))["ok"]
    with Connection(host.control) as other:
        for number in range(200000):
            other.ask("budget", bytes=(number % 1000 + 1) * PAGE)
            if number % 500 == 0 and other.ask("status")["host"]["control"]["dropped"]:
                break
    assert host.status()["control"]["dropped"] == 1
    it.close()


def is_taken(host):
    """Whether one more client is taken just now."""
    try:
        return host.status()
    except Refused:
        return False


def test_one_client_too_many_is_told_so(host):
    clients = [Raw(host.control) for _ in range(256)]
    eventually(lambda: clients[-1].answer(say(request="budget"))["ok"])
    late = Raw(host.control)
    assert json.loads(late.lines.readline())["error"] == {
        "code": "too-many-clients",
        "text": "256 clients are connected already",
    }
    assert late.lines.readline() == b""
    clients.pop().close()
    eventually(lambda: is_taken(host), "a place that is free isn't given to the next client")
    assert host.status()["control"]["turned_away"] >= 1
    for it in (late, *clients):
        it.close()
