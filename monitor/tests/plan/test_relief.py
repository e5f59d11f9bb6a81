"""Replays of days on which a host doesn't move on by itself, that a pencil can follow: guests
proceed alone, are lent from the overdraft, and let others pass."""

import pytest
from bigvasta.plan.days import Day, Recorded, Use
from bigvasta.plan.lender import Terms
from bigvasta.plan.replay import replay
from bigvasta.sizes import PAGE
from planner import run
from test_command import OPEN, TWO, plan
from test_replay import day_of

# Of 200 pages 50 are missing: a and b can spare 30 each, and give 25. At 10 a can spare 15, and
# lacks 10: it asks for 5, as no more may be overdrawn. b gives its last 5, which a gets; 5 are
# missing. A second later a gets the others beyond the budget. At 20 b can spare 60: what it gives
# pays them back first. a's part is 3, as both keep 12: b gives 17, and a gets 12.
OVERDRAWN = day_of(a=((0, 70), (10, 85), 30), b=((0, 70), (20, 40), 30))

# b asks for its 100 at 10, and c for its 50 at 12; a can spare 20, so that 80 are lent. At 20 b
# lets c pass, which can spare 40: they are too few for b, which is let in once a goes; c gets them
# back.
PASSED = Day(
    (
        Recorded("a", 100, (Use(0.0, 80),), 30.0),
        Recorded("b", 100, (Use(10.0, 50),), 40.0),
        Recorded("c", 50, (Use(12.0, 10),), 40.0),
    ),
    0.0,
    40.0,
)

# b and c can't be let in while a is there, which leaves room for 70: from 20 on each lets the other
# pass every ten seconds, and 11, 21 .. proceeds alone. So b is the first at 100, when a goes, and c
# never comes.
IN_TURNS = Day(
    (
        Recorded("a", 100, (Use(0.0, 80),), 100.0),
        Recorded("b", 100, (Use(10.0, 100),), 120.0),
        Recorded("c", 80, (Use(12.0, 80),), 120.0),
    ),
    0.0,
    120.0,
)

# What is expected, as in WORKED_OUT of test_replay.py; then pages overdrawn at worst, and for how
# long; how often a guest was to proceed alone, and how often one let others pass.
RELIEVED = {
    "an overdraft": (
        (OVERDRAWN, Terms(150, overdraft=5), (0.0, 1.0, 0.0), 1.0, 60.0, 1, 10.0, 5, 94),
        (5, 9.0, 1, 0),
    ),
    "no overdraft": (
        (OVERDRAWN, Terms(150), (10.0, 0.0), 10.0, 60.0, 1, 10.0, 5, 94),
        (0, 0.0, 1, 0),
    ),
    "one that lets others pass": (
        (PASSED, Terms(150), (8.0, 20.0, 0.0), 28.0, 88.0, 1, 20.0, 80, 100),
        (0, 0.0, 2, 1),
    ),
    "two that let each other pass": (
        (IN_TURNS, Terms(150), (90.0, 108.0), 198.0, 318.0, 1, 110.0, 110, 20),
        (0, 0.0, 10, 8),
    ),
    "one that lets others pass later": (
        (PASSED, Terms(150, patience=21), (20.0, 18.0), 38.0, 88.0, 1, 20.0, 80, 20),
        (0, 0.0, 1, 0),
    ),
}


@pytest.mark.parametrize("name", RELIEVED)
def test_a_host_that_stands_still(library, name):
    (day, terms, *expected), relief = RELIEVED[name]
    it = replay(library, day, terms)
    assert [it.waits, it.waited, it.present, it.shorts, it.short, it.lacked, it.moved] == expected
    assert (it.overdrawn, it.overdrawn_seconds, it.proceeded, it.passed) == relief


def written(folder, text):
    """Returns the file of a day."""
    path = folder / "day.csv"
    path.write_text(text)
    return str(path)


def test_an_overdraft_is_lent_to_who_waits(shared, tmp_path):
    """20 pages are missing from 10 to 20, and a lacks 30: it asks for 20, of which b gives 10, and
    then for 10. Each waits for a second."""
    words = written(tmp_path, TWO), "--budgets", "600K", "--overdraft", "80K"
    found = plan(shared, *words)["replays"][0]
    assert (found["waited"], found["worst"], found["short_seconds"]) == (2.0, 1.0, 10.0)
    assert (found["overdrawn"], found["overdrawn_seconds"]) == (81920, 9.0)
    lines = run(*words, "--library", shared, *OPEN).splitlines()
    assert lines[3].split()[-3:-1] == ["0.1", "9"]


def test_who_comes_lets_others_pass(shared, tmp_path):
    """PASSED: b lets c pass at 20, ten seconds after it has come; or not before it is let in."""
    rows = (("a", 0, 100, 80), ("b", 10, 100, 50), ("c", 12, 50, 10))
    last = (("a", 30, 100, 80), ("b", 40, 100, 50), ("c", 40, 50, 10))
    lines = [f"{name},{at},{size * PAGE},{used * PAGE}," for name, at, size, used in rows + last]
    day = written(tmp_path, "\n".join(("guest,seconds,size,used,free", *lines)))
    words = day, "--budgets", "600K", "--patience"
    found = [plan(shared, *words, it)["replays"][0] for it in ("10", "21")]
    assert [(it["waited"], it["let_pass"]) for it in found] == [(28.0, 1), (38.0, 0)]
