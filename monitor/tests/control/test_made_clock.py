"""How much a host does for clients until the time of a call is over, by a clock that is made: it is
over as soon as that is read again. And a client that its kernel has no room to wait for."""

import contextlib
import signal

import linux_kit
import pytest
from bigvasta.connection import Connection
from hosts import Host, Raw, say
from system_calls import as_int, calls_of
from waiting import eventually, patience_from_now

# Milliseconds after which a look continues, at most; and places of followers at a socket that are
# served until the time is looked at.
SOON, AT_ONCE = 5, 16


@pytest.fixture
def begin(folder):
    """Begins a host by a made clock, with a file that adds guests, which ends well."""
    begun = []

    def make(**environment):
        file = folder / "host.conf"
        file.write_text("[host]\n")
        program, process = map(
            linux_kit.built, ("clocked/vhost_user_host", "plain/vhost_user_balloon")
        )
        options = ("--budget", "1", "--config", str(file), "--program", process)
        begun.append(Host(program, folder, str(folder), *options, environment=environment))
        begun[0].lines.next(patience_from_now())
        return begun[0]

    yield make
    assert begun[0].end() == 0, begun[0].said()


@pytest.fixture
def host(begin):
    """Such a host."""
    return begin()


def add(host, *names):
    """Adds guests at once."""
    with open(f"{host.folder}/host.conf", "w", encoding="ascii") as file:
        file.write("[host]\n" + "".join(f"[guest {it}]\n" for it in names))
    host.process.send_signal(signal.SIGHUP)


def turns_of(calls):
    """Returns the calls of what is left of a turn, and of each turn after it, which waits first."""
    turns = [[]]
    for it in calls.all():
        turns += [[]] if it[0] == "poll" else []
        turns[-1].append(it)
    return turns


def count(turn, name):
    """Returns how often a turn makes a call."""
    return sum(it[0] == name for it in turn)


def test_one_client_is_served_in_a_turn(host):
    """One that may change nothing: who may is served by itself."""
    with Connection(host.shown) as it, calls_of(host.process.pid) as calls:
        for _ in range(10):
            it.ask("budget")
        turns = turns_of(calls)
    assert max(count(turn, "epoll_wait") for turn in turns) == 1


def test_a_status_has_one_guest_more_by_each_call(host):
    """The first call is made as a client asks for it, and then one in each turn, that one too."""
    names = [f"guest-{it}" for it in range(8)]
    add(host, *names)
    it = Raw(host.control)
    eventually(lambda: len(it.answer(say(request="status"))["guests"]) == len(names))
    with calls_of(host.process.pid) as calls:
        it.answer(say(request="floor", bytes=0))  # the last status is old then
        calls.forget()
        it.answer(say(request="status"))
        turns = turns_of(calls)
    it.close()
    asked, answered = (
        next(number for number, turn in enumerate(turns) if count(turn, name))
        for name in ("recvfrom", "sendto")
    )
    assert answered - asked == len(names) - 1


def test_an_event_is_told_in_a_look_to_some_followers(host):
    """The next look comes soon and continues with the next guest, whatever the first one does."""
    names, followers = [f"guest-{it}" for it in range(3)], []
    with calls_of(host.process.pid) as calls:
        for _ in range(3 * AT_ONCE - 1):
            followers.append(Raw(host.control))
            followers[-1].answer(say(request="events"))
        last = Connection(host.control)
        events = last.follow()
        files = [it[1] for it in calls.all() if it[0] == "sendto"]
        calls.forget()
        add(host, *names)
        told = []
        while len(told) < 2 * len(names):
            told.append(next(events))
            if told[-1]["event"] == "added":
                followers.append(Raw(f"{host.folder}/{names[0]}"))
        turns = turns_of(calls)
    for it in (*followers, last):
        it.close()
    assert [it["event"] for it in told] == [*["changed"] * len(names), *["added"] * len(names)]
    sent = [[its[1] for its in turn if its[0] == "sendto" and its[1] in files] for turn in turns]
    assert max(map(len, sent)) == AT_ONCE and sum(map(len, sent)) >= len(told) * len(files)
    waits = [as_int(turn[0][3]) for to, turn in zip(sent, turns[1:]) if to]
    assert max(waits) <= SOON, waits


def test_a_client_that_cannot_be_waited_for_goes(begin):
    """Beside the two sockets there is room for one: who comes next isn't served, until that one has
    gone."""
    host = begin(WAITS="3")
    first, other = Raw(host.control), Raw(host.control)
    assert other.lines.readline() == b""
    assert first.answer(say(request="status"))["host"]["control"]["clients"] == 1
    first.close(), other.close()

    def is_served():
        with contextlib.closing(Raw(host.shown)) as it:
            try:
                return it.answer(say(request="status"))["ok"]
            except (OSError, ValueError):
                return False

    eventually(is_served)
