"""The client program at its bounds: values of an answer, words of a command line, and a log that is
followed; by values alone."""

import contextlib
import types

import pytest
from bigvasta import answers, cli, words
from bigvasta.commands import log, upgrade, watch
from bigvasta.statuses import DONE, USAGE, Refused, Usage
from bigvasta.sizes import mebibytes, seconds
from bigvasta.terms import TERMS, parse_terms, said

MIB = 1 << 20


def durations(bounds, counts, total=0.5):
    """Returns a histogram."""
    return {"bounds": bounds, "counts": counts, "sum": total}


# A kind; what is of it, and what isn't. A count has 63 bits, a moment is before the year 10000, and
# a text has whole characters.
KINDS = (
    (answers.is_count, (0, 1, 2**63 - 1), (-1, 2**63, True, 1.0, "1", None)),
    (
        answers.is_seconds,
        (0, 0.0, 1.5, 253402300799),
        (-0.1, 253402300799.5, float("nan"), True, "1"),
    ),
    (answers.is_text, ("", "a", "\ud7ff", "\ue000"), ("\ud800", "a\udfff", 1, None)),
    (answers.is_flag, (True, False), (0, 1, None)),
    (answers.is_limit, (None, 0, 2**63 - 1), (-1, "none")),
    (answers.is_text_or_null, (None, "a"), (1, "\udfff")),
    (answers.are_counts, ({}, {"a": 0, "b": 1}), ({"a": -1}, {"\ud800": 1}, [], None)),
    (
        answers.are_durations,
        (durations([], [0]), durations([0.1, 2], [1, 2, 3])),
        (durations([1], [1]), durations([1], [1, 2, 3]), durations([-1], [1, 2]), {}),
    ),
)


@pytest.mark.parametrize("kind, its, others", KINDS, ids=[it[0].__name__ for it in KINDS])
def test_what_is_of_a_kind(kind, its, others):
    assert [bool(kind(it)) for it in (*its, *others)] == [True] * len(its) + [False] * len(others)


# What of an event isn't as it should be; a field that isn't always there may be left out, and not
# be null.
EVENTS = (
    ({}, None),
    ({"guest": "a", "budget": 0, "later": None}, None),
    ({"guest": None}, "guest"),
    ({"budget": -1}, "budget"),
    ({"decision": None}, "decision"),
    ({"time": None}, "time"),
)


@pytest.mark.parametrize("fields, place", EVENTS)
def test_the_place_of_what_is_wrong(fields, place):
    event = {"event": "gone", "time": 0.5} | fields
    assert answers.wrong_part(answers.EVENT, event) == place
    whole = {"host": {"event": [event]}}
    found = answers.wrong_part({"host": {"event": [answers.EVENT]}}, whole)
    assert found == (place and f"host.event[0].{place}")


def test_what_a_terminal_would_obey_is_escaped():
    assert words.plain("a\u00e9\u2500\x1b\u202e\n") == "a\u00e9\u2500\\x1b\\u202e\\n"


# Words that agree something with a guest, and the fields of the request.
WORDS = (
    ("priority=0", {"priority": 0}),
    ("priority=4294967295", {"priority": 2**32 - 1}),
    ("most=none", {"most": None}),
    ("most=4K", {"most": 4096}),
    ("least=8M strict=yes", {"least": 8 * MIB, "strict": True}),
    ("strict=no overhead=0M", {"strict": False, "overhead": 0}),
    ("limit=none", {"limit": None}),
    ("limit=cgroup:/x", {"limit": "cgroup:/x"}),
    ("limit=tmpfs:/x:y", {"limit": "tmpfs:/x:y"}),
    ("user=0", {"user": 0}),
    ("user=a1", {"user": "a1"}),
)
NO_WORDS = (
    "priority=4294967296 priority= priority=1.5 priority=٤ strict= strict=YES most=-4K most=5K "
    "least=none"
    " limit=cgroup limit=cgroup: limit=cgroup:x limit=tmpfs:x limit=/x limit=other:/x limit= =4K "
    "least"
)


@pytest.mark.parametrize("line, fields", WORDS)
def test_words_of_terms(line, fields):
    assert said(parse_terms(line.split(), TERMS)) == fields


@pytest.mark.parametrize("word", NO_WORDS.split())
def test_words_that_are_no_terms(word):
    with pytest.raises(Usage):
        parse_terms([word], TERMS)


@pytest.mark.parametrize("name", sorted(TERMS.keys() - {"user"}))
def test_more_digits_than_python_reads(name):
    with pytest.raises(Usage, match=f"^{name}: "):
        parse_terms([f"{name}={'1' * 5000}"], TERMS)


def test_columns_at_their_bounds():
    assert [mebibytes(it * MIB // 1000) for it in (9945, 9955)] == ["9.9", "10"]
    assert [seconds(it) for it in (5940, 6000)] == ["99 min", "2 h"]


@pytest.mark.parametrize(
    "interval, status", ((0.09, USAGE), (0.1, DONE), (60, DONE), (60.1, USAGE))
)
def test_intervals_of_a_view(monkeypatch, capsys, interval, status):
    monkeypatch.setattr(watch, "watch", lambda *_: None)
    assert cli.main(["watch", "--interval", str(interval)]) == status
    assert (capsys.readouterr().err == "") == (status == DONE)


def test_who_is_upgraded():
    states = ("absent", "coming", "ready", "leaving")
    answer = {"guests": [{"name": it, "state": it} for it in states]}
    assert set(upgrade.served(answer)) == {"coming", "ready"}


class Renewing:
    """A host with one guest, whose process is another one from each of these moments on, 0 where
    none has reported, and None once the guest has gone; time passes as its client sleeps."""

    def __init__(self, processes):
        self.processes, self.now, self.asked = {0: 5, **processes}, 0, []

    def sleep(self, seconds):
        """Lets time pass."""
        self.now = round(self.now + seconds, 3)

    def monotonic(self):
        """Returns the time."""
        return self.now

    def ask(self, request, **fields):
        """Answers with what there is, and notes when it is asked for another process."""
        process = [it for at, it in self.processes.items() if at <= self.now][-1]
        assert len(self.asked) < 99, "it asks for ever"
        if request == "renew":
            self.asked.append(self.now)
            if process is None:
                raise Refused({"code": "no-guest", "text": ""})
        return {
            "guests": [{"name": "a", "state": "ready", "process": process}] * (process is not None)
        }


# From when on a guest has which process; the one in the end; and when the host is asked for it.
RENEWED = (
    ({0.3: 7}, 7, [0]),
    ({0.8: 7}, 7, [0, 0.5]),
    ({0.2: 0, 0.7: 7}, 7, [0, 0.5]),
    ({}, 5, [it / 2 for it in range(20)]),
    ({9.9: 7}, 7, [it / 2 for it in range(20)]),
    ({0.2: None}, None, [0]),
    ({0: None}, None, [0]),
)


@pytest.mark.parametrize("processes, process, asked", RENEWED)
def test_another_process_is_asked_for_twice_a_second(monkeypatch, processes, process, asked):
    host = Renewing(processes)
    monkeypatch.setattr(upgrade, "Connection", lambda _: contextlib.nullcontext(host))
    monkeypatch.setattr(upgrade, "time", host)
    its = upgrade.renew("", {"name": "a", "process": 5})
    assert (its and its["process"], host.asked) == (process, asked)


class Coming(Renewing):
    """A host that becomes another program once its client has waited for the end of its connection.
    That one knows the process of each guest from such a moment on."""

    def __init__(self, moments):
        super().__init__({})
        self.moments, self.is_other = moments, False

    def ends(self):
        """It is another one from now on."""
        self.is_other = True

    def ask(self, request):
        """Answers with its version and its guests, or becomes another program."""
        self.asked.append(request)
        assert len(self.asked) < 999, "it asks for ever"
        guests = [
            {
                "name": str(number),
                "state": "absent" if at is None else "ready",
                "process": 0 if at is None or self.is_other and self.now < at else 5,
            }
            for number, at in enumerate(self.moments)
        ]
        return {"host": {"version": "new" if self.is_other else "old"}, "guests": guests}


# When the next host knows the process of each guest, where a client is there; and for how long an
# upgrade waits for that. Seconds.
COMES = (
    ((), 0),
    ((0,), 0),
    ((0.4,), 0.4),
    ((0.4, 0.1, 0.75, None), 0.75),
    ((9.95, 0), 9.95),
    ((None,), 0),
    ((10.5, 0.1), 10),
)


@pytest.mark.parametrize("moments, until", COMES)
def test_an_upgrade_waits_for_the_host_that_comes(monkeypatch, moments, until):
    """Until that one knows each guest's process, and no longer than a host may take to answer."""
    host = Coming(moments)
    monkeypatch.setattr(upgrade, "Connection", lambda _: contextlib.nullcontext(host))
    monkeypatch.setattr(upgrade, "time", host)
    before, after = upgrade.upgrade_host("")
    assert (before["host"]["version"], after["host"]["version"]) == ("old", "new")
    assert (host.asked[:2], host.asked.count("upgrade")) == (["status", "upgrade"], 1)
    assert host.now == until
    assert [it["process"] for it in after["guests"]] == [
        5 if it is not None and it <= until else 0 for it in moments
    ]


class Deciding:
    """A host that has taken five decisions of which it keeps the last two, as it is told, and takes
    a sixth one."""

    def __init__(self, *_):
        self.asked = []

    def ask(self, request, since):
        """Answers with one decision at a time, and with one change."""
        if request == "changes":
            return {"lost": 0, "changes": [{"change": 7}] if since < 8 else [], "next": 8}
        first = max(since, 3)
        self.asked.append((request, since))
        assert len(self.asked) < 9, "it asks for ever"
        return {
            "lost": first - since,
            "decisions": [decision(it) for it in range(first, min(first + 1, 5))],
            "next": min(first + 1, 5),
        }

    def follow(self):
        """Tells of the last ones that were asked for, too."""
        events = ({"event": "gone"}, *({"event": "changed", "change": it} for it in (7, 8)))
        return iter([*events, *({"decision": decision(it)} for it in (4, 5))])


def decision(number):
    """Returns a decision."""
    return {"number": number}


@pytest.mark.parametrize(
    "follow, numbers",
    ((False, ["change", "lost", 3, 4]), (True, ["change", "lost", 3, 4, "gone", "changed", 5])),
)
def test_each_decision_and_each_change_is_shown_once(monkeypatch, follow, numbers):
    shown = []
    monkeypatch.setattr(log, "Connection", lambda _: contextlib.nullcontext(Deciding()))
    monkeypatch.setattr(
        log,
        "show",
        lambda it, _: shown.append("lost" if "lost" in it else it.get("number", "change")),
    )
    monkeypatch.setattr(log, "event_line", lambda it: it)
    monkeypatch.setattr(
        log, "say", lambda it: shown.append(it.get("event") or it["decision"]["number"])
    )
    log.run(
        types.SimpleNamespace(
            follow=follow, control="", since="0", json=False, guest=None, targets=False
        )
    )
    assert shown == numbers


class Past:
    """A host whose changes and decisions came one after the other; older ones have no moments, or
    keep no changes."""

    def __init__(self, moments, refuses=False):
        self.moments, self.refuses = moments, refuses

    def kept(self, name, since):
        """Returns those of a kind from a number on."""
        its = self.moments[name].items()
        return [
            {name: number, **({} if at is None else {"seconds": at})}
            for number, at in its
            if number >= since
        ]

    def ask(self, request, since):
        """Answers with all that it has of a kind."""
        if request == "changes" and self.refuses:
            raise Refused({"code": "unknown-request", "text": ""})
        of_log = {"decisions": self.kept("number", since)}
        its = of_log if request == "log" else {"changes": self.kept("change", since)}
        return {"lost": 0, "next": 0, **its}


# Decisions and changes by their numbers, and when they came; from which decision on they are asked
# for; and what there was, in its order. Changes are those from the first of these decisions on.
MOMENTS = {"number": {0: 2.0, 1: 5.0, 2: 8.0}, "change": {3: 1.0, 4: 4.0, 5: 5.0, 6: 9.0}}
PASTS = (
    (
        Past(MOMENTS),
        0,
        ["change 3", "number 0", "change 4", "change 5", "number 1", "number 2", "change 6"],
    ),
    (Past(MOMENTS), 1, ["change 5", "number 1", "number 2", "change 6"]),
    (Past(MOMENTS), 2, ["number 2", "change 6"]),
    (Past(MOMENTS), 3, []),
    (Past(MOMENTS, refuses=True), 1, ["number 1", "number 2"]),
    (Past({"number": {0: None, 1: None}, "change": {}}), 1, ["number 1"]),
)


@pytest.mark.parametrize("host, since, wanted", PASTS)
def test_what_came_from_a_decision_on(host, since, wanted):
    found = log.past(host, since)
    assert [next(f"{key} {it[key]}" for key in it) for it in found] == wanted
