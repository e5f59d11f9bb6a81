"""What the client program makes of words and numbers: sizes, addresses, bars, pictures and
lines."""

import json
import types

import pytest
from bigvasta import picture, watching
from bigvasta.addresses import parse_address
from bigvasta.commands import log, upgrade
from bigvasta.picture import PLAIN, Shown
from bigvasta.sizes import mebibytes, parse_size, seconds
from bigvasta.statuses import DONE, PART, Usage
from bigvasta.waits import wait_of, words_of
from test_client import MIB


@pytest.mark.parametrize(
    "text, size",
    (
        ("4K", 4096),
        ("480M", 503316480),
        ("480MiB", 503316480),
        ("1G", 1 << 30),
        ("2T", 2 << 40),
        ("0M", 0),
    ),
)
def test_sizes(text, size):
    assert parse_size(text) == size


@pytest.mark.parametrize(
    "text", ("", "M", "480", "4.5M", "-1M", "+1M", "1 M", "1m", "1MB", "1K", "٤M", "9999999999999M")
)
def test_words_that_are_no_sizes(text):
    with pytest.raises(Usage):
        parse_size(text)


def test_columns():
    assert [mebibytes(it) for it in (0, 1, 512 << 10, 9 * MIB, 10 * MIB, 480 * MIB)] == [
        "0",
        "0.0",
        "0.5",
        "9.0",
        "10",
        "480",
    ]
    assert [seconds(it) for it in (0, 0.25, 99.9, 100, 5999, 7200)] == [
        "0.0 s",
        "0.2 s",
        "99.9 s",
        "2 min",
        "100 min",
        "2 h",
    ]


ADDRESSES = (
    ("localhost:9750", ("127.0.0.1", 9750)),
    (":9750", ("127.0.0.1", 9750)),
    ("[::1]:9750", ("::1", 9750)),
    ("a:1", ("a", 1)),
    ("a:65535", ("a", 65535)),
)


@pytest.mark.parametrize("text, address", ADDRESSES)
def test_addresses(text, address):
    assert parse_address(text) == address


def guest(name="a", **fields):
    """Returns a guest of 100 MiB as the host shows it."""
    sizes = dict.fromkeys(
        ("memory", "held", "loan", "excess", "target", "ballooned", "free", "available", "spare"), 0
    )
    its = {
        "name": name,
        "state": "ready",
        "answers": True,
        "cooperates": True,
        "waits_for": "nothing",
        "waits": 0.0,
        **sizes,
        "memory": 100 * MIB,
    }
    return its | {it: value * MIB if it in sizes else value for it, value in fields.items()}


# Of a guest of 100 MiB: what it has, and its bar of 20 characters: held, of it spare, lent beyond
# that, and what its target leaves.
BARS = (
    ({}, "                    ]"),
    ({"held": 50}, "##########          ]"),
    ({"held": 100}, "####################]"),
    ({"held": 50, "spare": 25}, "#####=====          ]"),
    ({"held": 50, "spare": 75, "ballooned": 50}, "#####=====          ]"),
    ({"held": 50, "loan": 75}, "##########.....     ]"),
    ({"held": 50, "target": 25}, "##########     |    ]"),
    ({"held": 100, "target": 50}, "##########|#########]"),
    ({"held": 120, "loan": 150, "spare": 200}, "====================]"),
    ({"target": 100}, "|                   ]"),
)


@pytest.mark.parametrize("fields, text", BARS)
def test_bars(fields, text):
    assert picture.guest_bar(guest(**fields), 100 * MIB, 20, PLAIN) == text


def test_a_smaller_guest_has_a_shorter_bar():
    assert picture.guest_bar(guest(memory=50, held=25), 100 * MIB, 20, PLAIN) == "#####     ]"
    assert picture.guest_bar(guest(memory=0), 100 * MIB, 20, PLAIN) == ""


# Who waits is told apart from who is silent, and from who took memory unasked.
WAITS = (
    ({}, ""),
    ({"waits_for": "deflate", "waits": 0.42}, "deflate, 0.4 s"),
    ({"answers": False}, "silent"),
    ({"cooperates": False}, "uncooperative"),
    ({"pressed": True}, "pressed"),
    ({"pressed": True, "waits_for": "reset", "waits": 1}, "reset, 1.0 s"),
    ({"pressed": True, "answers": False}, "silent"),
    ({"pressed": True, "cooperates": False}, "uncooperative"),
    ({"pressed": False}, ""),
    ({"answers": False, "state": "coming"}, ""),
    ({"waits_for": "room", "waits": 120, "answers": False}, "room, 2 min"),
)


@pytest.mark.parametrize("fields, said", WAITS)
def test_who_waits(fields, said):
    assert wait_of(guest(**fields)) == words_of(guest(**fields)) == said


# Who migrates is told beside that; an older host doesn't say.
MIGRATIONS = (
    ({"migration": "none", "migrating": 0}, "", "plain"),
    ({"migration": "outgoing", "migrating": 3.21}, "outgoing migration, 3.2 s", "plain"),
    (
        {"migration": "incoming", "migrating": 120, "waits_for": "room", "waits": 2},
        "room, 2.0 s; incoming migration, 2 min",
        "warning",
    ),
)


@pytest.mark.parametrize("fields, said, kind", MIGRATIONS)
def test_who_migrates(fields, said, kind):
    its = guest(**fields)
    assert words_of(its) == said and picture.wait_line(its) == picture.Line(said, kind)


def a_status(guests, **host):
    """Returns the status of a host of 480 MiB with these guests."""
    counts = dict.fromkeys(("waiting", "silent", "uncooperative", "missing", "lent", "held"), 0)
    return {
        "host": {"budget": 480 * MIB, "guests": len(guests), **counts, **host},
        "guests": guests,
    }


def test_a_picture_of_a_screen():
    guests = [guest("b", held=80, waits_for="deflate", waits=1.5), guest("a", held=20)]
    shown = picture.picture(
        a_status(guests, held=100 * MIB, waiting=1), 80, 10, Shown(blocks=PLAIN)
    )
    lines = [it.text.rstrip() for it in shown]
    assert len(lines) == 10 and all(len(it) <= 80 for it in lines)
    assert lines[0] == "budget 480  held 100  lent 0  promised 200 MiB"
    # 100 of 480 MiB are 16.25 of 78 characters.
    assert lines[1] == f"[{'#' * 16}{' ' * 62}]" and lines[2] == "2 guests, 1 waiting, by name"
    assert (
        lines[5].startswith("a                20")
        and lines[6].startswith("b                80")
        and lines[6].endswith("deflate, 1.5 s")
    )
    assert shown[6].kind == "warning" and shown[5].kind == "plain"
    by_held = picture.picture(a_status(guests), 80, 10, Shown(sort="held", blocks=PLAIN))
    assert [it.text[0] for it in by_held[5:7]] == ["b", "a"]


@pytest.mark.parametrize("width, height", ((1, 1), (10, 3), (60, 6), (200, 50), (40, 24), (80, 8)))
def test_pictures_fit_their_screens(width, height):
    """Beside guests there are two lines of the host, its state, the head of the table, the keys,
    and two empty lines."""
    guests = [guest(f"guest-{it}", held=it, waits_for="room", waits=5) for it in range(64)]
    lines = picture.picture(a_status(guests), width, height, Shown())
    assert len(lines) <= height and all(len(it.text) <= width for it in lines)
    assert sum(it.text.startswith("guest-") for it in lines) == max(height - 7, 0)


def test_a_decision_s_line():
    shares = [
        {"guest": "a", "old": 0, "target": 60 * MIB},
        {"guest": "b", "old": MIB, "target": MIB},
    ]
    decision = {
        "number": 7,
        "reason": "spare",
        "guest": "a",
        "budget": 480 * MIB,
        "missing": 2 * MIB,
        "shares": shares,
    }
    assert (
        log.decision_line(decision)
        == "decision 7: spare of a; budget 480, 2.0 missing; targets: a 0>60, b 1.0"
    )
    shares[0] |= {"old": 60 * MIB, "target": 0, "pressed": True}
    shares[1] |= {"pressed": True}
    decision |= {"reason": "pressure", "missing": 0, "tier": "cache"}
    assert log.decision_line(decision) == (
        "decision 7: pressure of a; budget 480, tier cache; targets: a 60>0 (pressed), b 1.0 "
        "(pressed)"
    )


def served(version, process=5):
    """Returns what a host shows of a guest `a`."""
    return {"name": "a", "state": "ready", "version": version, "process": process}


# A guest as the next host finds it, whose version was 1, or isn't known, and as it is once it was
# asked for the next process; what is said of it, and whether all is upgraded.
UPGRADED = (
    ("1", served("1"), served("2", 7), "1 -> 2", DONE),
    ("2", served("2"), served("2", 7), "2 -> 2", DONE),
    ("1", served("2", 7), served("2", 9), "1 -> 2", DONE),
    ("", served(""), served("2", 7), "unknown -> 2", DONE),
    (None, served("1"), served("2", 7), "1 -> 2", DONE),
    ("1", served("1"), None, "has gone", DONE),
    ("1", served("1"), served("1", 7), "1 stays, until its client reconnects", PART),
    ("1", served("1"), served("1"), "1 stays, until its client reconnects", PART),
    ("", served(""), served(""), "unknown stays, until its client reconnects", PART),
    (
        "2",
        served("2"),
        served("2"),
        "2 stays: its process doesn't answer, or waits for memory",
        PART,
    ),
)


@pytest.mark.parametrize("is_json", (False, True), ids=("lines", "json"))
@pytest.mark.parametrize("before, guest, then, words, status", UPGRADED)
def test_what_an_upgrade_says_of_a_guest(
    monkeypatch, capsys, is_json, before, guest, then, words, status
):
    """An operator learns which stay, and why; who reads JSON has the status of the host."""
    was = {"host": {"version": "1"}, "guests": [] if before is None else [served(before)]}
    its = {"host": {"version": "2"}, "guests": [guest]}
    monkeypatch.setattr(upgrade, "upgrade_host", lambda _: (was, its))
    monkeypatch.setattr(upgrade, "renew", lambda _, asked: asked == guest and then)
    monkeypatch.setattr(upgrade, "look", lambda *_: its)
    assert upgrade.run(types.SimpleNamespace(control="", json=is_json)) == status
    said = capsys.readouterr().out
    assert json.loads(said) == its if is_json else said == f"host: 1 -> 2\na: {words}\n"


class Screen:
    """A screen whose keys come after these seconds each, and that notes for how many milliseconds
    it is to wait for each."""

    def __init__(self, keys):
        self.keys, self.now, self.waits, self.looks = iter(keys), 100.0, [], []

    def getmaxyx(self):
        """Returns its size."""
        return 24, 80

    def timeout(self, milliseconds):
        """Notes how long it waits."""
        self.waits.append(milliseconds)

    def getch(self):
        """Waits for a key, and returns it; -1: none has come."""
        seconds, key = next(self.keys)
        self.now += seconds
        return key


def test_when_a_screen_looks_at_its_host(monkeypatch):
    """Each two seconds, however many keys come meanwhile, and not while it is paused."""
    pauses, ends = ord("p"), ord("q")
    keys = ((0.5, -1), (1.5, -1), (3, -1), (0.25, pauses), (2, -1), (0, pauses), (2, -1), (0, ends))
    screen = Screen(keys)
    monkeypatch.setattr(watching.curses, "curs_set", lambda _: None)
    monkeypatch.setattr(watching, "styles", dict)
    monkeypatch.setattr(watching, "draw", lambda *_: None)
    monkeypatch.setattr(watching, "picture", lambda *_: [])
    monkeypatch.setattr(watching, "time", types.SimpleNamespace(monotonic=lambda: screen.now))
    source = types.SimpleNamespace(
        status={"guests": []}, fault="", look=lambda: screen.looks.append(screen.now)
    )
    watching.show(screen, source, 2.0)
    assert screen.waits == [2000, 1500, 2000, 2000, 1750, 2000, 2000, 2000]
    assert screen.looks == [102.0, 105.0, 109.25]
