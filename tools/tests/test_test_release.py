"""What tools/test-release says as it goes: each step with its time, where the Debian is one that
answers at once."""

import re

import pytest
from page_claims import tool

RELEASE = tool("test-release")


class Answering:
    """A Debian in which each command ends well."""

    def __init__(self, *_):
        self.asked = []

    def __enter__(self):
        return self

    def __exit__(self, *_):
        pass

    def run(self, words, what):
        """Takes note of a command."""
        self.asked.append(what)
        return "yes"


@pytest.mark.parametrize("debian, others", (("12", "is there"), ("13", "isn't wanted")))
def test_each_step_is_said_with_its_time(monkeypatch, capsys, debian, others):
    system, clock = Answering(), iter(range(0, 1000, 7))
    monkeypatch.setattr(RELEASE, "Booted", lambda *_: system)
    monkeypatch.setattr(RELEASE, "make_root", lambda *_: "made")
    for name in "make_newer", "make_older":
        monkeypatch.setattr(RELEASE, name, lambda *_: ("one",))
    monkeypatch.setattr(RELEASE, "files_of", lambda _: set())
    monkeypatch.setattr(RELEASE, "only", lambda *_: "bigvasta-host_1_amd64.deb")
    monkeypatch.setattr(RELEASE.time, "monotonic", lambda: next(clock))
    RELEASE.run_steps(debian, "release", ("bigvasta-host",))
    lines = capsys.readouterr().out.splitlines()
    said = [re.fullmatch(rf"Debian {debian}, (.*): (.*), 7 s", it) for it in lines]
    assert all(said), lines
    first = [
        ("a fresh root", "made"),
        ("another Debian's QEMU", others),
        ("the packages of 0.1.0", "made"),
        ("it boots", "passed"),
        ("apt-get update", "passed"),
    ]
    assert [it.groups() for it in said[:5]] == first
    # What is looked at before and after isn't a step: whether there is a QEMU, and what is purged
    # first.
    steps = [
        it
        for it in system.asked
        if it not in ("dpkg --purge", "QEMU", "apt-get update", "lintian, bigvasta-host")
    ]
    assert [it[1] for it in said[6:-1]] == steps and len(steps) > 10, lines
