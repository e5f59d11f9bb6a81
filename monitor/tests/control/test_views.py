"""What the client program makes of a status, of events and of keys: lines and what is shown, made
of values alone."""

import curses
import time
import types

import pytest
from bigvasta import watching
from bigvasta.commands.log import event_line, show
from bigvasta.commands.status import lines, others, summary
from bigvasta.picture import SORTS, Shown, guest_bar, host_lines, ordered, state_line
from bigvasta.watching import ESCAPE, obey
from made_status import guest, status

MIB = 1 << 20

# A key, what is shown before it, with how many guests, and what it changes; None: it ends the view.
SHOWN = Shown(sort="name", first=5)
KEYS = (
    (ord("q"), SHOWN, 20, None),
    (ESCAPE, SHOWN, 20, None),
    (ord("x"), SHOWN, 20, {}),
    (-1, SHOWN, 20, {}),
    (ord("p"), SHOWN, 20, {"paused": True}),
    (ord("p"), SHOWN._replace(paused=True), 20, {"paused": False}),
    *(
        (ord("s"), SHOWN._replace(sort=old), 20, {"sort": new})
        for old, new in zip(SORTS, (*SORTS[1:], SORTS[0]))
    ),
    (curses.KEY_DOWN, SHOWN, 20, {"first": 6}),
    (ord("j"), SHOWN, 20, {"first": 6}),
    (curses.KEY_UP, SHOWN, 20, {"first": 4}),
    (ord("k"), SHOWN, 20, {"first": 4}),
    (curses.KEY_NPAGE, SHOWN, 20, {"first": 15}),
    (curses.KEY_NPAGE, SHOWN, 10, {"first": 9}),
    (curses.KEY_PPAGE, SHOWN, 20, {"first": 0}),
    (curses.KEY_DOWN, SHOWN, 6, {"first": 5}),
    (curses.KEY_DOWN, SHOWN._replace(first=0), 0, {"first": 0}),
)


@pytest.mark.parametrize("key, before, guests, changed", KEYS)
def test_keys(key, before, guests, changed):
    assert obey(key, before, guests) == (None if changed is None else before._replace(**changed))


class Clock:
    """A terminal where keys come at their times, and the clock of a host that is looked at; `looks`
    are the times of the looks."""

    def __init__(self, keys):
        self.now, self.keys, self.wait, self.looks = 0.0, [*keys], 0.0, []
        self.status, self.fault = {"host": host(), "guests": []}, ""

    def getmaxyx(self):
        """Returns how large the terminal is."""
        return 24, 80

    def timeout(self, milliseconds):
        """Sets how long a key is waited for."""
        self.wait = milliseconds / 1000

    def getch(self):
        """Returns the next key, or -1 after the wait."""
        if self.keys[0][0] > self.now + self.wait:
            self.now += max(self.wait, 0.001)
            return -1
        self.now, key = self.keys.pop(0)
        return ord(key)

    def look(self):
        """Asks for a new status."""
        self.looks.append(round(self.now, 3))


# Keys by their times, and when a host is looked at that is watched each second: a key is no reason
# to look, and a view that pauses doesn't.
LOOKS = (
    (((2.5, "q"),), [1, 2]),
    (((0.3, "s"), (0.6, "s"), (1.5, "s"), (2.5, "q")), [1, 2]),
    (((0.5, "p"), (3.2, "p"), (4.5, "q")), [4]),
)


@pytest.mark.parametrize("keys, looks", LOOKS)
def test_when_a_host_is_looked_at(monkeypatch, keys, looks):
    its = Clock(keys)
    monkeypatch.setattr(watching, "time", types.SimpleNamespace(monotonic=lambda: its.now))
    monkeypatch.setattr(watching.curses, "curs_set", lambda _: None)
    monkeypatch.setattr(watching, "styles", dict)
    monkeypatch.setattr(watching, "draw", lambda *_: None)
    watching.show(its, its, 1.0)
    assert its.looks == looks


def test_orders():
    guests = [
        {"name": name, "held": held, "waits": waits}
        for name, held, waits in (("b", 1, 0.0), ("c", 2, 3.0), ("a", 1, 0.0), ("d", 0, 5.0))
    ]
    orders = {it: "".join(guest["name"] for guest in ordered(guests, it)) for it in SORTS}
    assert orders == {"name": "abcd", "held": "cabd", "waits": "dcab"}


def host(**fields):
    """Returns a host of 480 MiB and two guests, as it shows itself."""
    its = {"budget": 480, "held": 0, "lent": 0, "missing": 0} | {
        it: fields.pop(it) for it in ("budget", "held", "lent", "missing") if it in fields
    }
    return (
        {it: size * MIB for it, size in its.items()}
        | {"guests": 2, "waiting": 0, "silent": 0, "uncooperative": 0, "version": "1.2.3"}
        | fields
    )


# What differs of a host, and how its two lines and the line below them are drawn.
KINDS = (
    ({}, "head", "plain"),
    ({"held": 480}, "head", "plain"),
    ({"held": 481}, "warning", "plain"),
    ({"missing": 1}, "warning", "plain"),
    ({"waiting": 1}, "head", "warning"),
    ({"uncooperative": 1}, "head", "warning"),
    ({"silent": 1}, "head", "plain"),
)


@pytest.mark.parametrize("fields, kind, below", KINDS)
def test_what_is_a_warning(fields, kind, below):
    lines = [*host_lines(host(**fields), [], 80, Shown()), state_line(host(**fields), Shown(), "")]
    assert [it.kind for it in lines] == [kind, kind, below]


def test_what_is_said_of_a_host():
    its = host(held=100, lent=200, missing=9, waiting=3, silent=2, uncooperative=1)
    assert summary(its) == (
        "budget 480, held 100, lent 200, missing 9.0 MiB; 2 guests, 3 waiting, 2 silent, 1 "
        "uncooperative; version 1.2.3"
    )
    assert (
        state_line(its, Shown(sort="held", paused=True), "").text
        == "2 guests, 3 waiting, 2 silent, 1 uncooperative, by held, paused"
    )
    assert state_line(its, Shown(), "it has gone") == (
        "no host answers, and this was its last word: it has gone",
        "warning",
    )


def test_bars_of_a_host():
    """Of 600 MiB that guests were promised, in 30 characters: what is held, what is lent beside
    that, and the budget's mark."""
    (_, bar) = host_lines(
        host(budget=480, held=200, lent=300), [{"memory": 600 * MIB}], 32, Shown(blocks="#=. |")
    )
    assert bar.text == "[##########.....         |     ]"
    # What is held beyond all of that has no place in a bar.
    (_, bar) = host_lines(host(held=700), [{"memory": 600 * MIB}], 32, Shown(blocks="#=. |"))
    assert bar.text == "[########################|#####]"


def test_the_bar_of_a_guest():
    """Of 100 MiB it holds 40, of which it can spare 10 beside what is in its balloon, and is lent
    60; the mark is where its target of 20 leaves it. It has half the memory of the largest."""
    its = guest("a", memory=100, held=40, loan=60, spare=30, ballooned=20, target=20)
    assert guest_bar(its, 200 * MIB, 40, "#=. |") == "######==....    |   ]"
    # Whose balloon has more than it can spare has none to spare: 75 MiB of 100 are 1.5 characters.
    its = guest("a", memory=100, held=75, loan=75, spare=10, ballooned=20)
    assert guest_bar(its, 100 * MIB, 2, "#=. |") == "##]"


def test_the_lines_of_a_status():
    guests = [
        guest("a", memory=256, held=8, loan=64, waits_for="room", waits=3.0),
        guest("longer", memory=1024, state="starting"),
    ]
    assert lines(status(guests, budget=480))[1:] == [
        "guest   state     memory  held  loan  target  balloon  spare  waits for",
        "a       ready        256   8.0    64       0        0      0  room, 3.0 s",
        "longer  starting    1024     0     0       0        0      0",
    ]


def test_processes_of_another_version():
    guests = [
        {"name": name, "process": process, "version": version}
        for name, process, version in (
            ("a", 1, "1.2.3"),
            ("b", 2, "1.2.2"),
            ("c", 0, ""),
            ("d", 3, ""),
        )
    ]
    assert [*others(host(), guests)] == ["processes of another version: b 1.2.2, d unknown"]
    assert not [*others(host(), guests[:1])]


# An event, and its line after the time.
EVENTS = (
    ({"event": "added", "guest": "a"}, "added a"),
    ({"event": "state", "guest": "a", "state": "ready"}, "state a ready"),
    ({"event": "waits", "guest": "a", "waits_for": "room"}, "waits a room"),
    (
        {"event": "granted", "guest": "a", "waits_for": "room", "waits": 1.25},
        "granted a room after 1.2 s",
    ),
    ({"event": "budget", "budget": 480 * MIB}, "budget 480 MiB"),
    (
        {
            "event": "decision",
            "decision": {
                "number": 7,
                "reason": "missing",
                "guest": "",
                "budget": 480 * MIB,
                "missing": 0,
                "shares": [],
            },
        },
        "decision 7: missing; budget 480; targets: no guests",
    ),
)


@pytest.mark.parametrize("event, line", EVENTS)
def test_lines_of_events(event, line, monkeypatch):
    monkeypatch.setenv("TZ", "UTC")
    day, clock, said = event_line(event | {"time": 3661.5, "number": 1, "version": 1}).split(" ", 2)
    assert (day, clock, said) == ("1970-01-01", "01:01:01", line)
    clock, said = event_line(event | {"time": time.time()}).split(" ", 1)
    assert len(clock) == 8 and said == line


def test_decisions_that_are_lost(capsys):
    show({"lost": 3}, False), show({"lost": 3}, True)
    assert capsys.readouterr().out == '3 decisions aren\'t kept any longer\n{"lost": 3}\n'
