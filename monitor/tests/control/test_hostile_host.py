"""The client program beside a host that is hostile, or another version: each answer is understood,
or refused in one line."""

import copy
import time
from unittest import mock

import pytest
from bigvasta.cli import main
from bigvasta.connection import Connection
from bigvasta.picture import Line
from bigvasta.statuses import Unclear
from bigvasta.watching import draw
from fakes import Fake, drip
from waiting import eventually

# What is put in the place of each part of an answer; GONE: nothing.
GONE, ESCAPES = object(), "\x1b]0;x\x07\u202e\n"
TRASH = (GONE, None, True, -1, 1.5, 1 << 63, float("inf"), ESCAPES, "\ud800", [], [None], {"x": 1})

# Commands, and what of a host's answers is wrong.
COMMANDS = {
    "status": "status",
    "metrics": "status",
    "guest a": "guest",
    "add a": "add",
    "remove a": "remove",
    "budget": "budget",
    "floor": "floor",
    "log": "log",
    "log -f": "event",
}


@pytest.fixture
def good(host, arrive):
    """What a host answers to each request, and an event."""
    arrive("a")
    eventually(lambda: host.guest("a")["answers"] and host.ask("log")["decisions"])
    answers = {it: host.ask(it) for it in ("status", "budget", "floor")}
    log = host.ask("log", since=0, limit=1)
    event = {
        "version": 1,
        "event": "decision",
        "number": 5,
        "time": 1e9,
        "decision": log["decisions"][0],
    }
    guest = host.ask("guest", name="a")
    return answers | {
        "guest": guest,
        "add": guest,
        "remove": {"version": 1, "ok": True},
        "log": log,
        "changes": {"version": 1, "ok": True, "changes": [], "next": 0, "lost": 0},
        "event": event,
    }


@pytest.fixture
def answers():
    """What the host of `path` answers to each request, which a test fills."""
    return {}


@pytest.fixture
def path(folder, answers):
    """The socket of a host that answers by a table of requests, where `event` is one for who
    follows it."""

    def answer(asked):
        if asked["request"] == "events":
            return {"version": 1, "ok": True}, answers["event"]
        return (answers[asked["request"]],)

    it = Fake(folder, answer)
    yield it.path
    it.close()


def places(value, before=()):
    """Yields the place of each part of an answer."""
    parts = (
        value.items()
        if isinstance(value, dict)
        else enumerate(value)
        if isinstance(value, list)
        else ()
    )
    for key, it in parts:
        yield (*before, key)
        yield from places(it, (*before, key))


def changed(answer, place, trash):
    """Returns an answer with another part in one place."""
    answer = copy.deepcopy(answer)
    part = answer
    for key in place[:-1]:
        part = part[key]
    if trash is GONE:
        del part[place[-1]]
    else:
        part[place[-1]] = trash
    return answer


def run(capsys, path, words):
    """Runs the client program; returns its status, and what it says on standard output and standard
    error."""
    status = main([*words.split(), "--control", path])
    return status, *capsys.readouterr()


def is_plain(text):
    """Whether nothing of a text is for a terminal but ends of lines."""
    return all(it.isprintable() for it in text.split("\n"))


@pytest.mark.timeout(600)
@pytest.mark.parametrize("words, request_of", COMMANDS.items(), ids=COMMANDS)
def test_each_part_of_an_answer_may_be_anything(capsys, good, answers, path, words, request_of):
    for place in places(good[request_of]):
        for trash in TRASH:
            answers.clear(), answers.update(good), answers.update(
                {request_of: changed(good[request_of], place, trash)}
            )
            status, said, fault = run(capsys, path, words)
            assert (status, fault.count("\n")) in ((0, 0), (4, 1)), (place, trash, fault)
            assert is_plain(said) and is_plain(fault), (place, trash, said, fault)


# A command, what a host answers in place of a good answer, and what the command says then.
LACKS = (
    ("status", ("host", "budget"), GONE, "host.budget"),
    ("status", ("host", "version"), 5, "host.version"),
    ("status", ("guests",), {}, "guests"),
    ("status", ("guests", 0, "held"), -1, "guests[0].held"),
    ("status", ("host", "measures", "waits", "counts"), [], "host.measures.waits"),
    ("status", ("ok",), GONE, "ok"),
    ("status", ("ok",), 1, "ok"),
    ("status", ("ok",), False, "error"),
    ("guest a", ("guest", "terms", "most"), "none", "guest.terms.most"),
    ("guest a", ("guest", "waits"), float("nan"), "guest.waits"),
    ("budget", ("budget",), True, "budget"),
    ("log", ("decisions", 0, "shares", 0, "target"), None, "decisions[0].shares[0].target"),
    ("log -f", ("time",), 1e300, "time"),
)


@pytest.mark.parametrize("words, place, trash, lacks", LACKS)
def test_what_an_answer_lacks_is_said(capsys, good, answers, path, words, place, trash, lacks):
    answers.update(good)
    answers[COMMANDS[words]] = changed(good[COMMANDS[words]], place, trash)
    status, _, fault = run(capsys, path, words)
    assert (status, fault) == (
        4,
        f"bigvasta: {path}: the host's answer has no {lacks}, or a wrong one\n",
    )


def test_an_older_host_is_understood(capsys, good, answers, path):
    """One of 0.2.0 counts no waits that weren't granted; a later one says more."""
    answers.update(good, status=changed(good["status"], ("host", "measures", "ungranted"), GONE))
    for words in "status", "metrics":
        assert run(capsys, path, words)[0] == 0
    answers["status"]["host"]["later"] = {"x": [None]}
    assert run(capsys, path, "status")[0] == 0


REFUSALS = (
    {"error": "x"},
    {"error": {"code": 1, "text": "x"}},
    {"error": {"code": "x"}},
    {"error": {"code": "x", "text": "x", "field": 1}},
    {"error": None},
)


@pytest.mark.parametrize("refusal", REFUSALS)
def test_a_refusal_that_is_none(capsys, answers, path, refusal):
    answers["budget"] = {"version": 1, "ok": False, **refusal}
    status, said, fault = run(capsys, path, "budget")
    assert (status, said, fault.count("\n")) == (4, "", 1) and "has no error" in fault


def test_a_refusal_s_words_are_escaped(capsys, answers, path):
    answers["budget"] = {
        "version": 1,
        "ok": False,
        "error": {"code": "refused", "field": "bytes", "text": ESCAPES},
    }
    assert run(capsys, path, "budget") == (1, "", "bigvasta: budget: \\x1b]0;x\\x07\\u202e\\n\n")


def test_a_screen_is_drawn_without_escapes():
    screen = mock.Mock(**{"getmaxyx.return_value": (1, 80)})
    draw(screen, [Line(ESCAPES)], {"plain": 0})
    assert screen.addnstr.call_args[0][2] == "\\x1b]0;x\\x07\\u202e\\n"


@pytest.mark.parametrize(
    "line",
    (
        b"[" * 100000,
        b'{"version": 1, "ok": true, "budget": ' + b"9" * 5000 + b"}",
        b"\xff",
        b"x" * (3 << 20),
    ),
)
def test_a_line_that_is_no_json(capsys, answers, path, line):
    answers["budget"] = line + b"\n"
    status, said, fault = run(capsys, path, "budget")
    assert (status, said, fault.count("\n")) == (4, "", 1)


def test_a_log_that_goes_round_ends(capsys, good, answers, path):
    answers.update(good)
    answers["log"] = {**good["log"], "next": 0}
    assert run(capsys, path, "log")[0] == 0


@pytest.mark.parametrize("request_of", ("log", "changes"))
def test_a_log_that_never_ends(capsys, good, folder, request_of):
    """Each answer has nothing, and says where to go on."""

    def answer(asked):
        its = {**good[asked["request"]]}
        if asked["request"] == request_of:
            its |= {"decisions": [], "changes": [], "next": asked["since"] + 1}
        return (its,)

    fake = Fake(folder, answer)
    status, said, fault = run(capsys, fake.path, "log")
    what = {"log": "decisions", "changes": "changes"}[request_of]
    assert (status, said, fault) == (4, "", f"bigvasta: {fake.path}: the host's {what} don't end\n")
    fake.close()


def test_one_limit_is_for_a_whole_answer(folder):
    """An answer that comes byte by byte, each of them in time, isn't waited for any longer."""
    fake = Fake(folder, lambda asked: drip(b" " * 1000, 0.2))
    begin = time.monotonic()
    with pytest.raises(Unclear, match="the host doesn't answer in time"), Connection(
        fake.path, limit=1
    ) as it:
        it.ask("budget")
    assert 1 <= time.monotonic() - begin < 20
    fake.close()
