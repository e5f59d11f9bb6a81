"""The command `bigvasta plan`: its answers, its refusals, and the smallest budget that it finds."""

import contextlib
import json
import os
import re
import subprocess
import sys

import pytest
from bigvasta.cli import parser
from bigvasta.plan import command, making
from bigvasta.statuses import Usage
from linux_kit import HEADERS
from planner import CLIENT, run
from waiting import PATIENCE

# The version that a library of vb.h has.
with open(os.path.join(HEADERS, "vb.h"), encoding="utf-8") as file:
    VERSION = int(re.search(r"#define VB_VERSION_NUMBER (0x\w+)u", file.read())[1], 16)

# The two guests of test_replay.py, whose pages are 4096 bytes: from 10 to 20 they need 170 pages at
# once.
TWO = """guest,seconds,size,used,free
a,0,409600,40960,
b,0,409600,368640,
a,10,409600,327680,
b,20,409600,81920,
a,30,409600,327680,
b,30,409600,81920,
"""


@pytest.fixture
def day(tmp_path):
    """The recorded day of two guests."""
    path = tmp_path / "day.csv"
    path.write_text(TWO)
    return str(path)


# All that a guest doesn't use it can give.
OPEN = ("--floor", "0", "--reserve", "0")


def plan(shared, day, *words):
    """Returns the plan of a day as an object."""
    return json.loads(run(day, "--library", shared, *OPEN, "--json", *words))


# A range and its steps, the seconds that a guest may wait in a day, and the smallest budget in
# pages: of each of 150 to 200 pages, 170 is the first at which nobody waits. In 2 steps 150, 175
# and 200 are tried, and then 162; in 3 steps 150, 166, 183 and 200, and then 171 and 177. On 150
# they wait 10 s of 60.
SMALLEST = (
    ("600K..800K", 50, 0, 170),
    ("600K..800K", 5, 0, 170),
    ("600K..800K", 2, 0, 175),
    ("600K..800K", 3, 0, 171),
    ("600K..676K", 19, 0, None),
    ("600K..800K", 50, 14400, 150),
    ("600K..800K", 50, 14399, 170),
    ("680K", 1, 0, 170),
)


@pytest.mark.parametrize(("budgets", "steps", "limit", "pages"), SMALLEST)
def test_smallest_budget(shared, day, budgets, steps, limit, pages):
    found = plan(
        shared, day, "--budgets", budgets, "--steps", str(steps), "--wait-seconds", str(limit)
    )
    assert found["budget"] == (None if pages is None else pages * 4096)
    assert found["wait_seconds"] == limit


NONE = "none of these budgets has room, and waits of 60 s a guest and day at most"


def test_guests_that_are_there_as_the_day_begins_need_room(shared, tmp_path):
    """Two of 100 pages use 80 each all day: none waits on any budget; 160 pages are enough."""
    path = tmp_path / "day.csv"
    rows = "".join(f"{it},{at},409600,327680,\n" for at in (0, 9) for it in "ab")
    path.write_text(f"guest,seconds,size,used,free\n{rows}")
    words = path, "--library", shared, *OPEN, "--steps", "1", "--budgets"
    assert run(*words, "400K..636K").splitlines()[-1] == NONE
    found = plan(shared, path, "--budgets", "636K..640K", "--steps", "1")
    assert [it["above"] for it in found["replays"]] == [4096, 0] and found["budget"] == 655360


def test_an_object(shared, day):
    found = plan(shared, day, "--budgets", "600K")
    assert found["replays"] == [
        {
            "budget": 614400,
            "promised": 819200,
            "guests": 2,
            "present": 60.0,
            "waited": 10.0,
            "waited_share": 1 / 6,
            "waited_a_day": 14400.0,
            "asks": 2,
            "asks_that_waited": 1,
            "median": 0.0,
            "p99": 10.0,
            "worst": 10.0,
            "worst_guest": "a",
            "worst_guest_waited": 10.0,
            "shorts": 1,
            "short_seconds": 10.0,
            "short_by": 81920,
            "overdrawn": 0,
            "overdrawn_seconds": 0.0,
            "proceeded_alone": 1,
            "let_pass": 0,
            "above": 0,
            "moved": 614400,
            "decisions": 4,
        }
    ]


def test_a_table(shared, day):
    lines = run(day, "--library", shared, *OPEN, "--budgets", "600K").splitlines()
    assert lines[0] == "2 guests, 0.8 MiB promised at once, 0.0 hours of guests"
    assert lines[3].split() == [
        "0.6",
        "1.33",
        "16.667%",
        "14400.0",
        "0.0",
        "10.0",
        "10.0",
        "1",
        "10",
        "0.1",
        "0",
        "0",
        "0.6",
    ]
    assert lines[-1] == NONE
    lines = run(
        day, "--library", shared, *OPEN, "--budgets", "680K..800K", "--steps", "1"
    ).splitlines()
    assert (
        lines[-1] == "budget 1M: 0.0 s a guest and day are waited; 1.18 times as much is promised"
    )


def test_an_overdraft_is_no_more_than_the_least_budget(shared, day):
    words = "--budgets", "600K..800K", "--steps", "1", "--overdraft"
    assert [it["budget"] for it in plan(shared, day, *words, "600K")["replays"]] == [614400, 819200]
    said = run(day, "--library", shared, *words, "604K", status=2)
    assert said == "bigvasta: --overdraft: 604K is more than the budget\n"


def test_a_day_that_is_made_is_the_same_for_a_seed(tmp_path, shared):
    made = run("--make", "5", "--seed", "3", "--hours", "2")
    assert made.splitlines() == [*making.make(5, 3, 2)]
    assert (
        made
        == run("--make", "5", "--seed", "3", "--hours", "2")
        != run("--make", "5", "--seed", "4", "--hours", "2")
    )
    path = tmp_path / "made.csv"
    path.write_text(made)
    assert plan(shared, str(path), "--steps", "4")["replays"][-1]["waited"] == 0.0


@pytest.mark.parametrize("kind", ("svg", "png"))
def test_a_picture(tmp_path, shared, day, kind):
    if subprocess.run(
        ["/usr/bin/python3", "-c", "import matplotlib"], capture_output=True, timeout=PATIENCE
    ).returncode:
        pytest.skip("matplotlib isn't there: apt-get install python3-matplotlib")
    path = tmp_path / f"plan.{kind}"
    run(day, "--library", shared, "--draw", str(path))
    assert path.read_bytes()[:5] == {"svg": b"<?xml", "png": b"\x89PNG\r"}[kind]
    said = run(day, "--library", shared, "--draw", f"{tmp_path}/none/plan.svg", status=2)
    assert said == f"bigvasta: --draw: {tmp_path}/none/plan.svg: No such file or directory\n"


# Modules that may be missing, and which packages have them.
MISSING = {
    "matplotlib": "--draw wants matplotlib: apt-get install python3-matplotlib",
    "pandas": "plan wants numpy and pandas: apt-get install python3-pandas",
}


@pytest.mark.parametrize("module", MISSING)
def test_a_package_that_is_missing(tmp_path, day, module):
    (tmp_path / f"{module}.py").write_text("raise ImportError\n")
    assert (
        run(day, "--draw", "plan.svg", status=2, path=f"{tmp_path}:{CLIENT}")
        == f"bigvasta: {MISSING[module]}\n"
    )


# How a word is read, its least and its most with what they are, and the next ones, which are none.
BOUNDS = (
    (command.pages_of, {"4K": 1, "17179869176K": (1 << 32) - 2}, ("0K", "17179869180K")),
    (command.hundredths_of, {"0.01": 1, "100": 10000}, ("0", "100.01")),
)


@pytest.mark.parametrize("read, good, bad", BOUNDS)
def test_the_least_and_the_most_of_a_word(read, good, bad):
    assert {it: read(it, "--it") for it in good} == good
    for it in bad:
        with pytest.raises(Usage, match=f"--it: '{it}' is(n't from| no size)"):
            read(it, "--it")


# Of each number of the command line: the least and the most, and the next ones, which are none; and
# the words of a plan that has it.
MADE, HOSTS = ("--make", "3"), ("--make", "3", "--fleet", "2", "--budget", "1G")
NUMBERS = {
    "make": ((0, 1, 1000000, 1000001), MADE),
    "hours": ((0.009, 0.01, 744, 744.1), MADE),
    "steps": ((0, 1, 1000, 1001), HOSTS),
    "reserve": ((-1, 0, 100, 101), HOSTS),
    "patience": ((0, 1, 86400, 86401), HOSTS),
    "fleet": ((0, 1, 100000, 100001), HOSTS),
    "places": ((0, 1, 1000, 1001), HOSTS),
    "processes": ((0, 1, 1024, 1025), HOSTS),
}


def test_each_number_of_the_command_line_has_its_bounds(monkeypatch, shared):
    with open(command.__file__, encoding="utf-8") as file:
        named = re.findall(r'demand_number\([^)]*"(\w+)"', file.read())
    assert sorted(named) == sorted(NUMBERS)
    reached = []
    monkeypatch.setattr(command.making, "make", lambda *_: reached.append("make") or ())
    monkeypatch.setattr(command.fleet, "plan", lambda *_: reached.append("plan") or sys.exit())
    for name, (numbers, words) in NUMBERS.items():
        for it in numbers:
            reached.clear()
            ended = contextlib.suppress(Usage, SystemExit)
            with ended:
                command.run(
                    parser().parse_args(["plan", *words, f"--{name}", str(it), "--library", shared])
                )
            assert bool(reached) == (it in numbers[1:3]), (name, it)


def test_a_fleet_promises_no_more_than_the_library_counts(monkeypatch, shared):
    """Three times this budget is 2^32 - 1 pages."""
    monkeypatch.setattr(command.fleet, "plan", lambda hosts, *_: sys.exit(str(hosts.terms.frames)))
    words = ["plan", *HOSTS[:4], "--budget", "5726623060K", "--library", shared, "--promises"]
    with pytest.raises(SystemExit, match="1431655765"):
        command.run(parser().parse_args([*words, "0.01..3"]))
    with pytest.raises(Usage, match="isn't below 16T"):
        command.run(parser().parse_args([*words, "0.01..3.01"]))


# Words of a command line that is refused, and what it says.
REFUSED = (
    ((), "plan: what is wanted is a FILE, or --make GUESTS"),
    (("DAY", "--make", "3"), "plan: what is wanted is a FILE, or --make GUESTS"),
    (("--make", "0"), "--make: 0 isn't from 1 to 1000000 guests"),
    (("--make", "3", "--hours", "0"), "--hours: 0.0 isn't from 0.01 to 744"),
    (("--make", "3", "--hours", "nan"), "--hours: nan isn't from 0.01 to 744"),
    (("DAY", "--wait-seconds", "-1"), "--wait-seconds: -1.0 isn't from 0 on"),
    (("DAY", "--wait-seconds", "nan"), "--wait-seconds: nan isn't from 0 on"),
    (("DAY", "--steps", "0"), "--steps: 0 isn't from 1 to 1000"),
    (("DAY", "--budgets", "2G..1G"), "--budgets: '2G..1G' ends before it begins"),
    (("DAY", "--budgets", "0K..1G"), "--budgets: '0K' isn't from 4K on"),
    (
        ("DAY", "--budgets", "1G..16T"),
        "--budgets: '16T' is no size: a number with K, M, G or T, in pages of 4K, such as 480M",
    ),
    (
        ("DAY", "--budgets", "many"),
        "--budgets: 'many' is no size: a number with K, M, G or T, in pages of 4K, such as 480M",
    ),
    (
        ("DAY", "--floor", "3"),
        "--floor: '3' is no size: a number with K, M, G or T, in pages of 4K, such as 480M",
    ),
    (
        ("DAY", "--overdraft", "8K", "--budgets", "4K..1G"),
        "--overdraft: 8K is more than the budget",
    ),
    (("none.csv",), "none.csv: No such file or directory"),
    (("\x1b[2J.csv",), "\\x1b[2J.csv: No such file or directory"),
)


@pytest.mark.parametrize(("words", "said"), REFUSED)
def test_refusals(day, words, said):
    assert run(*(day if it == "DAY" else it for it in words), status=2) == f"bigvasta: {said}\n"


def test_what_is_no_library(tmp_path, day, shared):
    (tmp_path / "libvb.so").write_text("no library")
    assert run(day, "--library", f"{tmp_path}/libvb.so", status=2).startswith(
        f"bigvasta: {tmp_path}/libvb.so is no library of vb.h: "
    )
    program = "import bigvasta.plan.library as it; it.VERSION += 256; it.load({!r})".format(shared)
    ran = subprocess.run(
        ["/usr/bin/python3", "-B", "-c", program],
        capture_output=True,
        text=True,
        timeout=PATIENCE,
        env={**os.environ, "PYTHONPATH": CLIENT},
    )
    assert (
        f"Usage: {shared} has version {VERSION:#08x}, and {VERSION + 256:#08x} is wanted\n"
        in ran.stderr
    )
    program = "import bigvasta.plan.library as it; it.PLACES = (); it.load()"
    ran = subprocess.run(
        ["/usr/bin/python3", "-B", "-c", program],
        capture_output=True,
        text=True,
        timeout=PATIENCE,
        env={**os.environ, "PYTHONPATH": CLIENT},
    )
    assert (
        "Usage: the library isn't there: make -C monitor shared makes it, --library FILE names "
        "another\n"
    ) in ran.stderr


# What holds where a command line doesn't say it, as the help has it.
DEFAULTS = {
    "steps": 12,
    "floor": "12M",
    "reserve": 5,
    "overdraft": "0",
    "patience": 10,
    "wait_seconds": 60.0,
    "seed": 1,
    "hours": 24.0,
    "promises": "1.00..2.00",
    "places": 64,
}


def test_what_is_not_said():
    asked = vars(parser().parse_args(["plan", "DAY"]))
    said = {it: asked[it] for it in asked if it not in ("file", "command", "run") and asked[it]}
    assert said == DEFAULTS
