"""Tests that tools/lib/gate_steps.py names each step that fails or lacks a package, and lets rt ci
run after none."""

import os

import gate_steps
import pytest
from gate_steps import Step

PASSES, FAILS = Step("passes", ("true",)), Step(
    "a wrong body", ("sh", "-c", "echo the body; echo is wrong >&2; exit 1")
)
SKIPS = Step(
    "skips", ("echo", "SKIPPED [2] tests/test_one.py:7: tmux isn't there: apt-get install tmux")
)
LACKS = Step("lacks", ("true",), ("nobody-has-this-package",))


@pytest.fixture(autouse=True)
def logs(tmp_path, monkeypatch):
    """A folder of logs for the test alone, on a machine whose user isn't root, and rt in whose
    place a line is printed."""
    monkeypatch.setattr(gate_steps, "LOGS", str(tmp_path))
    monkeypatch.setattr(os, "geteuid", lambda: 1000)
    monkeypatch.setattr(os, "chdir", lambda path: None)
    monkeypatch.setattr(os, "execvp", lambda program, words: print("runs", *words))


def test_a_line_for_each_step_and_what_failed_said(capsys):
    assert gate_steps.run_all((FAILS, PASSES)) == 1
    said = capsys.readouterr().out.splitlines()
    assert [it.split(" in ")[0] for it in said[:2]] == ["a wrong body: FAILED", "passes: passed"]
    assert said[-5:] == [
        "    the body",
        "    is wrong",
        "",
        "failed: a wrong body",
        "1 passed, 1 failed",
    ]


def test_what_is_skipped_says_why(capsys):
    assert gate_steps.run_all((SKIPS,)) == 0
    first, last = capsys.readouterr().out.splitlines()
    assert (
        first.endswith("s; 2 skipped: tmux isn't there: apt-get install tmux")
        and last == "1 passed, 0 failed"
    )


def test_what_is_missing_is_named_before_anything_runs(capsys):
    assert gate_steps.run_all((PASSES, LACKS)) == 2
    assert capsys.readouterr() == ("", "test: missing: apt-get install nobody-has-this-package\n")


@pytest.mark.parametrize(
    "step, status, last",
    ((PASSES, None, "runs rt ci"), (FAILS, 1, "0 passed, 1 failed"), (LACKS, 2, None)),
)
def test_rt_ci_runs_where_the_quick_part_passed_alone(step, status, last, monkeypatch, capsys):
    monkeypatch.setattr(gate_steps, "QUICK", (step,))
    assert gate_steps.gate() == status
    assert (capsys.readouterr().out.splitlines() or [None])[-1] == last


@pytest.mark.parametrize(
    "tries, status, lines",
    ((1, 1, ["FAILED"]), (2, 0, ["FAILED", "passed"]), (3, 0, ["FAILED", "passed"])),
)
def test_a_step_has_failed_that_fails_each_time(tries, status, lines, tmp_path, capsys):
    later = Step(
        "later", ("sh", "-c", f"test -e {tmp_path}/there || {{ touch {tmp_path}/there; false; }}")
    )
    assert gate_steps.run_all((later,), tries) == status
    said = [it.split() for it in capsys.readouterr().out.splitlines() if it.startswith("later: ")]
    assert [it[1] for it in said] == lines


def test_a_step_that_hangs_fails(monkeypatch, capsys):
    monkeypatch.setattr(gate_steps, "LIMIT", 0.1)
    assert gate_steps.run_all((Step("hangs", ("sleep", "60")),)) == 1
    assert "    it hangs, after 0.1 s" in capsys.readouterr().out.splitlines()


def tools_of(folder, monkeypatch, installs):
    """Puts an apt-get and a dpkg-query that knows what it has installed in front; the first try
    doesn't install anything, and the second one does where `installs`."""
    folder.mkdir()
    apt_get = (
        f"case $* in *install*) echo x >> {folder}/tries; [ $(wc -l < {folder}/tries) -lt 2 ] || "
        f"{'touch' if installs else 'true'} {folder}/there; esac"
    )
    for name, text in (
        ("apt-get", apt_get),
        ("dpkg-query", f"[ ! -e {folder}/there ] || echo nobody-has-this-package installed"),
    ):
        (folder / name).write_text(f"#!/bin/sh\n{text}\n", encoding="ascii")
        (folder / name).chmod(0o755)
    monkeypatch.setenv("PATH", f"{folder}:{os.environ['PATH']}")
    monkeypatch.setattr(os, "geteuid", lambda: 0)
    monkeypatch.setattr("debian_packages.PAUSE", 0)


@pytest.mark.parametrize("installs, status", ((True, 0), (False, 2)))
def test_root_installs_what_is_missing_and_says_so(installs, status, tmp_path, monkeypatch, capsys):
    tools_of(tmp_path / "bin", monkeypatch, installs)
    assert gate_steps.run_all((LACKS,)) == status
    assert capsys.readouterr().out.startswith("installs, by apt-get: nobody-has-this-package\n")
