"""What a host answers to its lines: each number of a guest whose process a test plays, which all
differ, and those of the host as its status has them."""

import time

import pytest
from kept import structs
from linux_host import pairs
from played import COUNTERS, Listens, Played
from played import FIGURES as MOST_FIGURES
from tenants import AVAILABLE, FREE
from vhost_client import PAGE

# Nobody is looked at by itself; the floor is 3 pages.
SELDOM = ("--strict", "--floor", "12K", "--reserve", "0", "--step", "0", "--period", "60000")
FRAMES, FLOOR = 156, 3

# The guest's terms as words, and in the line `guests`, whose sizes are pages.
WORDS = "least=8K most=1020K priority=13 weight=15 strict=1 overhead=20K memory=1016K"
TERMS = {"least": 2, "most": 255, "priority": 13, "weight": 15, "overhead": 5}

# What its process reports: 200 pages, of which 40 are in its balloon; by the budget 44 are wanted
# there.
TOTAL, TARGET, LENT = 5, 44, 200 - 40
REPORT = {"pages": 200, "held_kib": 611, "ballooned": 40, "ballooned_then": 40, "target": TARGET}
OTHERS = {"actual": 39, "status": 15, "end": 777}
FIGURES = ((FREE, 31 * PAGE), (AVAILABLE, 61 * PAGE), (TOTAL, 1 << 33))

# Counters that the line `guests` has, and fields of a guest's status, in pages or as they are.
SHOWN = ("inflated", "deflated", "reported", "taken", "statistics")
FLAGS = ("answers", "reports", "cooperates", "pressed", "process")
PAGES = {"pages": "memory", "lent": "loan", "spare": "spare", "asked": "target", "limit": "limit"}

# Fields of the line `counters` that the host's status has, in pages; and its own counters.
OF_HOST = {"frames": "budget", "floor": "floor", "short": "missing", "lent": "lent"}
COUNTED = ("looks", "above", "decisions", "changed", "shorts", "admitted", "refused", "gone")


@pytest.fixture
def played(lend, checked):
    """A host with a guest that reports this, and one that is absent; and what the counters of the
    first are, and what plays its process."""
    lender, names = lend(1, *SELDOM, program=checked), [it for _, it in structs()["counters"]]
    assert len(names) == COUNTERS
    counted = {it: 1001 + number for number, it in enumerate(names)}
    listens = Listens(lender.folder, "a")
    lender.demand(f"add a {WORDS}"), lender.demand("add absent")
    its = {**REPORT, **OTHERS, "obeyed": TARGET + 1, "figure_count": 3, "figures": FIGURES}
    guest = Played(lender, "a", listens=listens, counters=tuple(counted.values()), **its)
    lender.set_budget(FRAMES)
    lender.become("a", target=TARGET, lent=LENT)
    yield lender, counted, guest
    guest.leave()


def test_the_line_of_each_guest(played):
    lender, counted, _ = played
    lines = lender.guests()
    seen = lines["a"]
    status = {it["name"]: it for it in lender.status()["guests"]}
    assert {it: seen[it] for it in TERMS} == TERMS
    assert {it: seen[it] for it in SHOWN} == {it: counted[it] for it in SHOWN}
    assert {it: seen[it] for it in REPORT if it in seen} == {
        it: number for it, number in REPORT.items() if it in seen
    }
    assert (seen["free"], seen["available"], seen["lent"]) == (31, 61, LENT)
    assert (seen["here"], seen["ready"], seen["waits"]) == (1, 1, "nothing")
    absent = lines["absent"]
    assert (absent["here"], absent["ready"], absent["overhead"]) == (0, 0, 64 * 256)
    for name, line in lines.items():
        assert {it: line[it] for it in FLAGS} == {it: status[name][it] for it in FLAGS}
        wanted = {it: status[name][field] // PAGE for it, field in PAGES.items()}
        assert {it: line[it] for it in PAGES} == wanted
    known = {*TERMS, *SHOWN, *REPORT, *FLAGS, *PAGES, "free", "available", "here", "ready"}
    assert set(seen) <= known | {"waits", "limit_failures"}


def test_the_counters_of_a_guest(played):
    lender, counted, _ = played
    words = lender.ask("a counters").split()
    assert words[::2] == ["target", "actual", "status", "held_kib", "end", *counted]
    assert pairs(words) == {"target": TARGET, "held_kib": 611, **OTHERS, **counted}


def test_the_statistics_of_a_guest(played):
    lender, counted, _ = played
    told = f"statistics {counted['statistics']}"
    figures = "free_memory {} available_memory {} total_memory {}".format(
        *(it for _, it in FIGURES)
    )
    assert lender.ask("a statistics") == f"{told} {figures}"


def test_of_more_statistics_than_a_message_has_those_are_taken_that_it_has(played):
    lender, counted, guest = played
    its = tuple((tag, (tag + 1) * PAGE) for tag in range(MOST_FIGURES))
    guest.report(figure_count=(1 << 32) - 1, figures=its)
    words = lender.ask("a statistics").split()
    assert words[:2] == ["statistics", str(counted["statistics"])]
    assert words[3::2] == [str(it) for _, it in its]


def test_the_counters_of_the_host(played):
    lender, *_ = played
    line, host = lender.counters(), lender.status()["host"]
    assert {it: line[it] for it in OF_HOST} == {it: host[at] // PAGE for it, at in OF_HOST.items()}
    assert (line["frames"], line["floor"], line["lent"]) == (FRAMES, FLOOR, LENT)
    assert (line["held_kib"], line["tier"]) == (611, host["tier"])
    assert {it: line[it] for it in COUNTED} == {it: host["counters"][it] for it in COUNTED}


# Seconds for which new reports are waited for before a line's reply is of the old ones.
NEW_REPORTS = 0.3

# Lines that a host refuses, and why.
NUMBER, NOBODY = "a number of MiB, or a size such as 8G", "nobody is there"
OF_GUEST = "target PAGES, counters, statistics or ask"
OF_ALL = (
    "add, remove, terms, budget, floor, guests, counters, log, leave, quit, or a guest's name and "
    "its line"
)
TERMS_ARE = (
    "a name, and of least=MIB, most=MIB, priority=NUMBER, weight=NUMBER from 1 on, strict=0 or 1, "
    "overhead=MIB, limit=cgroup:PATH or tmpfs:MOUNT, user=NAME, memory=MIB, start=MIB what is "
    "wanted"
)
SIZES = ("least", "most", "overhead", "memory", "start")
NO_TERMS = (
    *(f"{name}={it}" for name in SIZES for it in ("", "x", "1B", "16777216")),
    *("priority=", "priority=-1", "priority=4294967296", "weight=0", "weight=4294967296"),
    *("strict=2", "strict=", "strict=yes", "wait=1", "a", "=", "least"),
)
REFUSED = {
    **{f"terms a {it}": TERMS_ARE for it in NO_TERMS},
    **{f"{word} {it}": NUMBER for word in ("budget", "floor") for it in ("x", "16777216", "-1")},
    **{f"absent {it}": NOBODY for it in ("counters", "statistics", "ask", "target 1", "x", "quit")},
    **{f"a target {it}": "target PAGES" for it in ("", "x", "4294967296", "-1", "1K")},
    **{f"a {it}": OF_GUEST for it in ("", "counter", "asks", "targe 1")},
    "a quit": "quit is for all guests",
    **{it: OF_ALL for it in ("", "x", "a", "guest", "nobody counters", f"{'a' * 32} counters")},
}


@pytest.mark.parametrize("line", REFUSED)
def test_a_line_that_is_refused(played, line):
    assert played[0].ask(line) == f"error: {REFUSED[line]}"


def test_the_most_that_terms_take(played):
    """A number of 32 bits, and as many MiB as pages of 32 bits are."""
    lender = played[0]
    lender.demand("terms a priority=4294967295 weight=4294967295 most=16777215 strict=0")
    terms = next(it for it in lender.status()["guests"] if it["name"] == "a")["terms"]
    assert (terms["priority"], terms["weight"], terms["strict"]) == (*2 * (2**32 - 1,), False)
    assert terms["most"] == ((1 << 24) - 1) << 20


def test_a_line_is_answered_by_reports_that_came_after_it(played):
    lender, _, guest = played
    for number in range(50, 60):
        with guest.lock:
            guest.its["actual"] = number
        assert pairs(lender.ask("a counters").split())["actual"] == number
        with guest.lock:
            guest.its["held_kib"] = 500 + number
        assert lender.guests()["a"]["held_kib"] == 500 + number
        with guest.lock:
            guest.its["held_kib"] = 400 + number
        assert lender.counters()["held_kib"] == 400 + number


def test_a_line_waits_for_a_report_no_longer_than_for_a_while(played):
    """The reply is of the last one then."""
    lender, _, guest = played
    with guest.lock:
        begin = time.monotonic()
        assert pairs(lender.ask("a counters").split())["actual"] == OTHERS["actual"]
        assert time.monotonic() - begin >= NEW_REPORTS


@pytest.mark.parametrize("length", (4096, 100000, 1 << 20))
def test_a_line_of_any_length_is_one(played, length):
    """It is refused once, and the next one is obeyed."""
    lender = played[0]
    assert lender.ask("budget " + "9" * length) == f"error: {OF_ALL}"
    assert lender.ask("budget 1") == "ok"


def test_a_line_names_its_guest_whole(played):
    """Also where the one before had a longer name."""
    lender = played[0]
    names = ("a" * 31, "ab", "a")
    for name in names[:2]:
        lender.demand(f"add {name}")
    for name in names:
        assert lender.ask(f"{name} target 3") in ("ok", f"error: {NOBODY}")
