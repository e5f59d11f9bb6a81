"""Events for many followers at once: a host writes to each follower once for all that a look has
found, and to some in each turn, so that no turn takes long."""

import json
import signal
import socket

from bigvasta.connection import MOST_READ, Connection
from system_calls import calls_of
from test_later_lender import QUICK
from waiting import PATIENCE

# Clients that follow at each socket, guests that a file adds, and seconds of the processor: no turn
# takes more, beside the one that adds the guests.
FOLLOWERS, GUESTS, MOST = 240, 64, 0.02

# Guests that are added one by one: where a look's time is over, as the machine is busy, another one
# follows with writes of its own. OTHERS: the writes of the answer to who adds a guest, and of a
# line of the log.
TRIES, OTHERS = 5, 2


def follow(path):
    """Returns a client that follows a host, and reads no event."""
    it = socket.socket(socket.AF_UNIX)
    it.settimeout(PATIENCE)
    it.connect(path)
    it.sendall(b'{"version": 1, "request": "events"}\n')
    assert json.loads(it.recv(1000))["ok"]
    return it


def follow_all(lender):
    """Returns clients of both sockets that follow."""
    paths = [f"{lender.folder}/{it}" for it in (".control", ".status")]
    return [follow(it) for it in paths for _ in range(FOLLOWERS)]


def longest(lender):
    """Returns how many turns took longer than MOST."""
    its = lender.status()["host"]["measures"]["processor"]
    return sum(
        count for bound, count in zip([*its["bounds"][1:], 1e9], its["counts"][1:]) if bound > MOST
    )


def test_no_turn_takes_long(lend, tmp_path):
    file = tmp_path / "host.conf"
    file.write_text("[host]\n")
    lender = lend(1, *QUICK, "--config", str(file))
    followers = follow_all(lender)
    before = longest(lender)
    with Connection(f"{lender.folder}/.control") as last:
        events = last.follow()
        file.write_text("[host]\n" + "".join(f"[guest guest-{it}]\n" for it in range(GUESTS)))
        lender.process.send_signal(signal.SIGHUP)
        added = [
            next(it["guest"] for it in events if it["event"] == "added") for _ in range(GUESTS)
        ]
    assert len(set(added)) == GUESTS and longest(lender) <= before + 1
    for it in followers:
        it.close()


def writes_of_turns(calls, lender, name, last):
    """Adds a guest, which is two events; returns how many writes each turn has made, once the last
    follower has both."""
    calls.forget()
    with Connection(f"{lender.folder}/.control") as it:
        it.ask("add", name=name)
    while b'"event":"added"' not in last.recv(MOST_READ):
        pass
    words = " ".join(it[0] for it in calls.all())
    return [it.split().count("sendto") for it in words.split("poll")]


def test_a_look_is_one_write_to_each_follower_in_several_turns(lend):
    lender = lend(1, *QUICK)
    followers = follow_all(lender)
    with calls_of(lender.process.pid) as calls:
        turns = [
            writes_of_turns(calls, lender, f"guest-{it}", followers[-1]) for it in range(TRIES)
        ]
    assert min(map(sum, turns)) == len(followers) + OTHERS
    assert max(map(max, turns)) < len(followers)
    for it in followers:
        it.close()
