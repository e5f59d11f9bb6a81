"""Words of a host's command line and of its lines that are refused by name."""

import os
import re
import subprocess

import pytest
from test_strict import STRICT
from waiting import PATIENCE

# Options of a host of 256 frames, and what it says of them.
OPTIONS = (
    (("--overdraft", "257"), "overdraft: an overdraft is no more than the budget"),
    (("--lowest-budget", "2"), "lowest_budget: more than the budget"),
    (("--patience", "0"), "--patience: 0 can't be taken"),
    (("--patience", "86401"), "--patience: 86401 can't be taken"),
    (("--program", "/nowhere"), "/nowhere: No such file or directory"),
)


# Of each option that has a number: its base, the least number and the most that it takes
# (vhost_user_host(1), vhost_user_balloon(1)); of any other the usage is said.
BOUNDS = {
    "budget": (10, 1, (1 << 24) - 1),
    "keep": (10, 0, (1 << 24) - 1),
    "lowest-budget": (10, 0, (1 << 24) - 1),
    "floor": (10, 0, (1 << 24) - 1),
    "guests": (10, 1, 1024),
    "period": (10, 10, 60000),
    "step": (10, 0, (1 << 32) - 2),
    "reserve": (10, 0, 100),
    "overdraft": (10, 0, (1 << 32) - 2),
    "patience": (10, 1, 86400),
    "cost": (10, 0, (1 << 32) - 2),
    "lines": (10, 0, (1 << 31) - 1),
    "features": (16, 0, (1 << 64) - 1),
}
OF_A_BALLOON = ("lines", "features")


def said_by(*words):
    """Returns what a program says that ends as its words or its folder aren't good."""
    ran = subprocess.run(
        words,
        stdin=subprocess.DEVNULL,
        capture_output=True,
        text=True,
        timeout=PATIENCE,
        env={"LC_ALL": "C"},
    )
    assert (ran.returncode, ran.stdout) == (2, "")
    return ran.stderr


@pytest.mark.parametrize("program", ("vhost_user_host", "vhost_user_balloon"))
def test_each_number_of_an_option_has_its_bounds(plain, program):
    path, is_host = f"{os.path.dirname(plain)}/{program}", program == "vhost_user_host"
    usage = subprocess.run([path, "--help"], capture_output=True, text=True, check=True).stdout
    named = set(re.findall(r"--([\w-]+) (?:MIB|MS|N|PERCENT|PAGES|SECONDS|HEX)\b", usage))
    assert named == set(BOUNDS if is_host else OF_A_BALLOON)
    words = (path, "/nowhere/socket", *(("--budget", "1") if is_host else ()))
    for name in sorted(named):
        base, least, most = BOUNDS[name]
        numbers = {
            it: f"{it:x}" if base == 16 else f"{it}" for it in (least - 1, least, most, most + 1)
        }
        said = {it: said_by(*words, f"--{name}", text) for it, text in numbers.items()}
        assert {it for it in said if usage not in said[it]} == {least, most}, (name, said)


@pytest.mark.parametrize("words, why", OPTIONS)
def test_an_option_that_cannot_be_is_named(plain, tmp_path, words, why):
    said = said_by(plain, str(tmp_path), "--budget", "1", *words)
    assert any(it.endswith(why) for it in said.splitlines()), said


@pytest.mark.parametrize("twice", ("least", "most", "priority", "overhead", "memory", "start"))
def test_a_term_that_is_said_twice_is_named(lend, twice):
    lender = lend(1, *STRICT)
    lender.demand("add a")
    terms = f"{twice}=1 strict=1 {twice}=2"
    assert lender.ask(f"add b {terms}") == f"error: b {terms}: {twice}= is said twice"
    assert lender.ask(f"terms a {terms}") == f"error: {twice}= is said twice"
    # Nor is another word it, which is none, whatever it has of its letters.
    for other in (f"{twice[:-1]}_", f"{twice}_", f"_{twice}", twice[:-1]):
        said = lender.ask(f"terms a {other}=1 {twice}=1")
        assert said.startswith("error: a name, and of "), (other, said)
    assert set(lender.guests()) == {"a"}
