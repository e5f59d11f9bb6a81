"""Tests of a host that want limits by cgroups of the second version. They run in a machine that has
them, all at once; hosts that are wrong on purpose have to fail there by the test that is for
them."""

import os
import re
import xml.etree.ElementTree

import pytest
from debian_disk import FOLDER
from linux_kit import ROOT

HOST = "monitor/tests/host"
FILES = ("test_cgroups.py", "test_limits.py")

# Seconds of a test there.
LIMIT = 1500

# What each wrong host of monitor/tests/mutants/wrong_host.c has to fail.
WRONG = {
    "9": "test_cgroups.py::test_a_target_alone_lowers_no_limit",
    "10": "test_cgroups.py::test_nothing_is_granted_before_the_limit_is_raised",
}

# A command in the machine has limits of its own.
pytestmark = pytest.mark.timeout(0)


def names(file):
    """Returns the tests of a file, but for those over a tmpfs, which any machine has."""
    with open(os.path.join(ROOT, HOST, file), encoding="utf-8") as lines:
        found = re.findall(r"(?m)^def (test_\w+)", lines.read())
    return [f"{file}::{it}" for it in found if "tmpfs" not in it]


def words_of(tests, **settings):
    """Returns the words that run tests there, but for those over a tmpfs, which any machine has."""
    settings = {
        "HOST_PROGRAM": f"{FOLDER}/programs/vhost_user_host",
        "PYTHONUNBUFFERED": 1,
        **settings,
    }
    said = " ".join(f"{name}={it}" for name, it in settings.items())
    paths = " ".join(f"{HOST}/{it}" for it in tests)
    return (
        f"cd {FOLDER}/source && {said} python3 -m pytest -v --tb=short -o timeout={LIMIT} -k 'not "
        f"tmpfs' --junitxml=/tmp/report {paths}"
    )


def cases(report):
    """Returns the cases of each test, by its name: why one didn't pass, or nothing."""
    found = {}
    for case in xml.etree.ElementTree.fromstring(report).iter("testcase"):
        name = f"{case.get('classname').rsplit('.', 1)[1]}.py::{case.get('name').split('[')[0]}"
        whys = [
            f"{case.get('name')}: {it.tag}: {it.get('message')}\n{it.text}"
            for it in case
            if it.tag in ("failure", "error", "skipped")
        ]
        found.setdefault(name, []).extend(whys or [None])
    return found


@pytest.fixture(scope="module")
def outcomes(machine, request):
    """What became of each test that is asked for."""
    asked = [
        it.callspec.params["name"] for it in request.session.items if "outcomes" in it.fixturenames
    ]
    status, lines = machine.tried(words_of(asked), "the tests of a host")
    assert status in (0, 1), "\n".join(lines[-20:])
    return cases(machine.run("cat /tmp/report", "the report"))


@pytest.mark.parametrize("name", [name for it in FILES for name in names(it)])
def test_within(outcomes, name):
    whys = [it for it in outcomes[name] if it]
    assert not whys, "\n".join(whys)


@pytest.mark.parametrize("wrong", [pytest.param(it, marks=pytest.mark.wrong(it)) for it in WRONG])
def test_a_wrong_host_fails(machine, wrong):
    """The test that is for it finds it."""
    status, lines = machine.tried(words_of([WRONG[wrong]], HOST_WRONG=wrong), f"wrong host {wrong}")
    faults = [it for it in lines if it.startswith("E  ")]
    assert status == 1 and faults, "\n".join(lines[-20:])
    print(f"wrong host {wrong} fails {WRONG[wrong]}: {faults[0][4:]}")
