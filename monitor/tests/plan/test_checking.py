"""What a host granted beside a replay of what its guests asked for and gave: days that a pencil can
follow, and hosts that granted otherwise."""

import json
import subprocess

import pytest
from planner import run, words_of
from test_matrix import answer
from waiting import PATIENCE

PAGE = 4096
CELLS = {
    "size": "bigvasta_guest_memory_bytes",
    "loan": "bigvasta_guest_loan_bytes",
    "asked": "bigvasta_guest_asked_bytes",
    "granted": "bigvasta_guest_granted_bytes_total",
    "waiting": "bigvasta_guest_waiting_seconds",
}


def series(name, guest, values):
    """Returns a series of values that are a second apart, or pairs."""
    labels = {"__name__": name, "instance": "h"} | ({"guest": guest} if guest else {})
    return {
        "metric": labels,
        "values": [
            it if isinstance(it, list) else [number, str(it)] for number, it in enumerate(values)
        ],
    }


def recording(budgets, **guests):
    """Returns the series of a host with these budgets, and of guests of 100 pages, by rows of loan,
    asked and granted pages; a fourth number is the seconds for which the guest has waited."""
    found = [series("bigvasta_budget_bytes", "", [it * PAGE for it in budgets])]
    for guest, rows in guests.items():
        columns = zip(*((100, *row[:3], *(row[3:] or [0])) for row in rows))
        for cell, values in zip(CELLS, columns):
            found.append(
                series(
                    CELLS[cell], guest, [it if cell == "waiting" else it * PAGE for it in values]
                )
            )
    return found


def rows(text):
    """Returns rows, which are written as `loan/asked/granted` or `loan/asked/granted/waiting`."""
    return [tuple(int(it) for it in row.split("/")) for row in text.split()]


# Of 150 pages a has 90 and b 60. At 1 a asks for 10, and waits. At 2 b gives 10: a has them. Both
# give and are granted at 3.
WAITS = {"a": "90/0/0 90/10/0 100/0/10 95/0/10 100/0/15", "b": "60/0/0 60/0/0 50/0/0 55/0/5 50/0/5"}

# At 1 both ask, b first. At 2 c gives 5, which b gets; at 3 c gives 5 and b 5, and a gets its 10.
ORDER = {
    "a": "90/0/0 90/10/0/1 90/10/0/2 100/0/10",
    "b": "50/0/0 50/5/0/5 55/0/5 50/0/5",
    "c": "10/0/0 10/0/0 5/0/0 0/0/0",
}

# What a guest asked for it doesn't want any longer: all, then the last part; it gets the rest.
LEAVES = "90/0/0 90/10/0 90/0/0 90/4/0 90/9/0 90/4/0 94/0/4 94/3/4 97/0/7"
LEAVES_IT = [150] * 6 + [154] * 2 + [157], {"a": LEAVES, "b": " ".join(["60/0/0"] * 9)}

# Days of hosts that grant as vb_host_step does; of each guest the pages that it was granted, and
# the seconds that it waited.
SAME = {
    "waits": ([150] * 5, WAITS, {"a": (15, 1), "b": (5, 0)}),
    "in the order of the line": ([150] * 4, ORDER, {"a": (10, 2), "b": (5, 1), "c": (0, 0)}),
    "asks that are withdrawn": (*LEAVES_IT, {"a": (7, 5), "b": (0, 0)}),
    "a budget that grows": (
        [150, 150, 160],
        {"a": "90/0/0 90/10/0 100/0/10", "b": "60/0/0 60/0/0 60/0/0"},
        {"a": (10, 1), "b": (0, 0)},
    ),
    # Between two looks a gets 10 of 150 pages, then 100 are the budget.
    "a grant before the budget falls": (
        [150, 150, 100, 100, 150],
        {
            "a": "90/0/0 90/0/0 100/0/10 100/0/10 95/0/10",
            "b": "50/0/0 50/0/0 50/5/0/1 50/5/0/2 55/0/5",
        },
        {"a": (10, 0), "b": (5, 2)},
    ),
    # a gives 20, which b would have got of 150 pages.
    "no grant before the budget falls": (
        [150, 150, 100, 100, 100],
        {
            "a": "90/0/0 90/0/0 70/0/0 70/0/0 70/0/0",
            "b": "50/30/0 50/30/0/1 50/30/0/2 50/30/0/3 50/30/0/4",
        },
        {"a": (0, 0), "b": (0, 4)},
    ),
    # Between two looks b gives 40, and a gets them three times, and gives them twice: 120 at once
    # would never fit.
    "grants in parts": (
        [100] * 3,
        {"a": "20/0/0 60/0/120 60/0/120", "b": "80/0/0 40/0/0 40/0/0"},
        {"a": (120, 0), "b": (0, 0)},
    ),
    # One look late is within the time between two looks.
    "a grant at the look after": (
        [160] * 3,
        {"a": "90/0/0 90/10/0 100/0/10", "b": "60/0/0 60/0/0 60/0/0"},
        {"a": (10, 1), "b": (0, 0)},
    ),
}

# Days of hosts that are wrong, and by how many looks each guest is apart: one that grants late, one
# that lends more than there is, one that serves the second of the line first; those that do so when
# the budget falls.
WRONG = {
    "late": (
        [160] * 6,
        {
            "a": "90/0/0 90/10/0 90/10/0 90/10/0 100/0/10 100/0/10",
            "b": "60/0/0 60/0/0 60/0/0 60/0/0 60/0/0 60/0/0",
        },
        {"a": 3, "b": 0},
    ),
    "more than there is": (
        [150] * 4,
        {"a": "90/0/0 100/0/10 100/0/10 100/0/10", "b": "60/0/0 60/0/0 60/0/0 50/0/0"},
        {"a": 2, "b": 0},
    ),
    "never": (
        [160] * 4,
        {"a": "90/0/0 90/10/0 90/10/0 90/10/0", "b": "60/0/0 60/0/0 60/0/0 60/0/0"},
        {"a": 3, "b": 0},
    ),
    "the second first": (
        [150] * 5,
        {
            "a": "90/0/0 90/10/0/1 90/10/0/2 90/10/0/3 90/10/0/4",
            "b": "55/0/0 55/0/0 55/2/0 57/0/2 57/0/2",
            "c": "5/0/0 5/0/0 5/0/0 0/0/0 0/0/0",
        },
        {"a": 0, "b": 2, "c": 0},
    ),
    "after the budget fell": (
        [150, 100, 100, 100, 100],
        {
            "a": "90/0/0 90/10/0/0 90/10/0/1 100/0/10 100/0/10",
            "b": "50/0/0 50/0/0 50/0/0 50/0/0 50/0/0",
        },
        {"a": 2, "b": 0},
    ),
    "more than the budget before": (
        [150, 150, 100, 100, 100],
        {
            "a": "90/0/0 90/0/0 100/0/10 100/0/10 100/0/10",
            "b": "55/0/0 55/0/0 55/0/0 55/0/0 55/0/0",
        },
        {"a": 3, "b": 0},
    ),
    # Of 10 pages b was the first to want 20, of which a got 5.
    "the second first before the budget falls": (
        [150, 150, 100, 100, 100],
        {
            "a": "90/0/0 90/0/0 95/0/5 95/0/5 95/0/5",
            "b": "50/20/0/1 50/20/0/2 50/20/0/3 50/20/0/4 50/20/0/5",
        },
        {"a": 3, "b": 0},
    ),
}


def check(tmp_path, shared, day, *words, status=0, fails=False):
    """Returns what the command says of a day; one that it finds to differ ends with status 1, and
    one that it refuses with another."""
    budgets, guests = day
    path = tmp_path / "day.json"
    path.write_text(
        answer(recording(budgets, **{name: rows(text) for name, text in guests.items()}))
    )
    if not fails:
        return run(str(path), "--check", "--library", shared, *words, status=status)
    command, environment = words_of(str(path), "--check", "--library", shared, *words)
    ran = subprocess.run(command, capture_output=True, text=True, timeout=PATIENCE, env=environment)
    assert (ran.returncode, ran.stderr) == (1, "")
    return ran.stdout


@pytest.mark.parametrize("name", SAME)
def test_hosts_that_grant_the_same(tmp_path, shared, name):
    budgets, guests, expected = SAME[name]
    found = json.loads(check(tmp_path, shared, (budgets, guests), "--json"))
    assert (found["agrees"], found["look"]) == (True, 1)
    assert {
        it["guest"]: (it["granted"] // PAGE, it["waited"]) for it in found["guests"]
    } == expected
    assert all(it["apart"] <= 1 and it["granted"] == it["replayed"] for it in found["guests"])


@pytest.mark.parametrize("name", WRONG)
def test_hosts_that_grant_otherwise(tmp_path, shared, name):
    budgets, guests, expected = WRONG[name]
    found = json.loads(check(tmp_path, shared, (budgets, guests), "--json", fails=True))
    assert not found["agrees"]
    assert {it["guest"]: it["apart"] for it in found["guests"]} == expected


def test_a_table(tmp_path, shared):
    found = check(tmp_path, shared, SAME["waits"][:2]).splitlines()
    assert [it.split() for it in found[:3]] == [
        ["guest", "granted", "replayed", "waited", "replayed", "apart"],
        ["a", "0.1", "0.1", "1.0", "1.0", "0.0"],
        ["b", "0.0", "0.0", "0.0", "0.0", "0.0"],
    ]
    assert found[3:] == ["the replay grants the same, within 1 s, the time between two looks"]
    assert check(tmp_path, shared, WRONG["late"][:2], fails=True).endswith(
        "the replay differs: it doesn't grant the same, within 1 s, the time between two looks\n"
    )


def replaced(name, *values):
    """Returns a day's series, one of which has other values."""
    day = recording([150] * 5, **{guest: rows(text) for guest, text in WAITS.items()})
    return [
        series(name, it["metric"].get("guest"), values)
        if it["metric"]["__name__"] == name and it["metric"].get("guest", "a") == "a"
        else it
        for it in day
    ]


BUDGET = "bigvasta_budget_bytes"
REFUSED = (
    (replaced(BUDGET, 1, 1, 1, 1, 1), ": the host at 0: budget: 1 isn't whole pages of 4096 bytes"),
    (replaced(BUDGET, 4096, 4096), ": a at 2: the host has no budget then"),
    (
        replaced(CELLS["loan"], 90, 90, 90, 90, 90),
        ": a at 0: loan: 90 isn't whole pages of 4096 bytes",
    ),
    (
        replaced(CELLS["waiting"], 0, "NaN", 0, 0, 0),
        ": a at 1: waiting: 'NaN' is no time in seconds from 0 on",
    ),
    (
        replaced(CELLS["waiting"], 0, 0, -1, 0, 0),
        ": a at 2: waiting: '-1' is no time in seconds from 0 on",
    ),
    (
        replaced(CELLS["asked"], 45056, 0, 0, 0, 0),
        ": a at 0: loan and asked are 101 pages, and the guest has 100",
    ),
    (
        replaced(CELLS["size"], 409600, 409600, 413696, 413696, 413696),
        ": a at 2: size: it had 100 pages before, and has 101 now",
    ),
    (
        [it for it in replaced("") if it["metric"]["__name__"] != BUDGET],
        ": the host has no series bigvasta_budget_bytes",
    ),
    (
        [it for it in replaced("") if it["metric"]["__name__"] != CELLS["asked"]],
        ": a has no series bigvasta_guest_asked_bytes",
    ),
    (
        replaced(CELLS["loan"], *([it, str(90 * PAGE)] for it in (0, 1, 3, 4))),
        ": a at 2: loan has a hole",
    ),
    (
        [*replaced(""), {"metric": {"__name__": BUDGET, "instance": "g"}, "values": [[0, "4096"]]}],
        ": there are 2 hosts, and one is wanted",
    ),
)


@pytest.mark.parametrize(("result", "words"), REFUSED)
def test_recordings_that_are_refused(tmp_path, shared, result, words):
    path = tmp_path / "day.json"
    path.write_text(answer(result))
    assert run(str(path), "--check", "--library", shared, status=2) == f"bigvasta: {path}{words}\n"


def test_a_guest_that_is_not_strict(tmp_path, shared):
    said = check(tmp_path, shared, ([150] * 2, {"a": "90/0/0 95/0/0"}), status=2)
    assert said == (
        "bigvasta: a at 1: its loan grows by more than it was granted: a guest that isn't "
        "strict can't be compared\n"
    )


@pytest.mark.parametrize(
    "words",
    (
        (),
        ("day.json", "--make", "3"),
        ("day.json", "--budgets", "1G"),
        ("day.json", "--fleet", "3"),
        ("day.json", "--draw", "a.svg"),
    ),
)
def test_what_is_not_with_it(words):
    assert (
        run("--check", *words, status=2)
        == "bigvasta: plan: --check wants a FILE alone, of which it takes the budget\n"
    )


def test_a_file_that_is_not_there(tmp_path, shared):
    assert (
        run(f"{tmp_path}/none", "--check", "--library", shared, status=2)
        == f"bigvasta: {tmp_path}/none: No such file or directory\n"
    )


def test_what_the_host_did_itself(tmp_path, shared):
    """Of 200 pages on 150 one guest of two waits for a second of four: a picture and a plan have it
    beside the replays."""
    day = recording([150] * 5, **{name: rows(text) for name, text in WAITS.items()})
    metrics = {
        "bigvasta_guest_available_bytes": 0,
        "bigvasta_guest_free_bytes": 0,
        "bigvasta_guest_ballooned_bytes": 40 * PAGE,
    }
    path, picture = tmp_path / "day.json", tmp_path / "day.svg"
    path.write_text(
        answer(
            [
                *day,
                *(
                    series(it, guest, [value] * 5)
                    for it, value in metrics.items()
                    for guest in "ab"
                ),
            ]
        )
    )
    words = (
        str(path),
        "--library",
        shared,
        *"--floor 0 --budgets 600K --draw".split(),
        str(picture),
    )
    assert json.loads(run(*words, "--json"))["host"] == {
        "budget": 150 * PAGE,
        "promise": 200 / 150,
        "waited_a_day": 86400 / 8,
    }
    assert (
        "the host itself: 10800.0 s a guest and day were waited; 1.33 times its 0.6 MiB were "
        "promised\n"
    ) in run(*words)
    assert "the host itself" in picture.read_text()
