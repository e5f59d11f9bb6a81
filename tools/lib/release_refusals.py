"""What tools/release has to refuse, each in a copy of the tree: nothing is packed that the kit
doesn't show as proved of a commit."""

import contextlib
import os
import shutil
import signal
import subprocess
import tempfile
from collections.abc import Callable
from typing import NamedTuple

import release_marks
from linux_packages import ROOT, Fault, last_line

# Seconds that a refusal may take; what isn't refused would go on, and prove.
LIMIT = 200
PROGRAM = release_marks.PROGRAM
SOURCE, PROOF = "crates/vb_sim/src/main.rt", "crates/vb_sim/proofs/More.antt"


class Case(NamedTuple):
    """What is wrong with a tree, how it is made so, and words of the refusal."""

    what: str
    make: Callable
    words: str
    gate: str = ""


def add_to(path, text):
    """Adds a text to a file."""
    with open(path, "a", encoding="utf-8") as file:
        file.write(text)


def commit(tree):
    """Commits all of a tree."""
    words = [
        "git",
        "-c",
        "user.name=x",
        "-c",
        "user.email=x@y.invalid",
        "commit",
        "-q",
        "-a",
        "-m",
        "x",
    ]
    subprocess.run(words, cwd=tree, check=True, capture_output=True)


def put_program(tree):
    """Puts a program and a mark that fits it and the sources, so that nothing is wrong yet."""
    program = f"{tree}/{PROGRAM}"
    os.makedirs(os.path.dirname(program), exist_ok=True)
    shutil.copy(shutil.which("true"), program)
    with open(f"{program}.stamp", "w", encoding="ascii") as file:
        file.write(release_marks.sum_of_sources(tree) + release_marks.sum_of(program))


def change_and_commit(tree):
    """Changes a source of the program, in a commit."""
    add_to(f"{tree}/{SOURCE}", "\n")
    commit(tree)


CASES = (
    Case(
        "another program called vb_sim",
        lambda tree: shutil.copy(shutil.which("false"), f"{tree}/{PROGRAM}"),
        "isn't the program that the kit's mark is of",
    ),
    Case(
        "a program without a mark",
        lambda tree: os.remove(f"{tree}/{PROGRAM}.stamp"),
        "has no mark of the kit's",
    ),
    Case("no program", lambda tree: os.remove(f"{tree}/{PROGRAM}"), "isn't there"),
    Case("a program of other sources", change_and_commit, "was proved of other sources"),
    Case(
        "a source that isn't committed",
        lambda tree: add_to(f"{tree}/{SOURCE}", "\n"),
        f"isn't that of a commit, of which a release is made: M {SOURCE}",
    ),
    Case(
        "a file that isn't of the commit",
        lambda tree: add_to(f"{tree}/{PROOF}", "\n"),
        f"isn't that of a commit, of which a release is made: ?? {PROOF}",
    ),
    Case(
        "a gate that failed",
        lambda tree: None,
        "doesn't end with what a passed gate says",
        "27 passed, 1 failed",
    ),
    Case(
        "a gate of another tree",
        lambda tree: None,
        "is of another tree's gate",
        "27 passed, 0 failed",
    ),
    Case("a gate that isn't there", lambda tree: None, "No such file", "-"),
)


def release(tree, room, gate):
    """Runs the tree's tools/release; returns its status, and the last line that it said."""
    words = [f"{tree}/tools/release", "--untried", "--out", f"{room}/made"]
    if gate:
        words += ["--gate", f"{room}/gate"]
    if gate.endswith("failed"):
        with open(f"{room}/gate", "w", encoding="utf-8") as file:
            file.write(f"{gate}\n")
    with subprocess.Popen(
        words, stdout=subprocess.DEVNULL, stderr=subprocess.PIPE, text=True, start_new_session=True
    ) as ran:
        try:
            said = ran.communicate(timeout=LIMIT)[1]
        except subprocess.TimeoutExpired:
            return None, f"it isn't refused within {LIMIT} s"
        finally:
            with contextlib.suppress(ProcessLookupError):
                os.killpg(ran.pid, signal.SIGKILL)
    return ran.returncode, last_line(said)


def refused(case):
    """Demands that a case is refused in its words, and that nothing is made; without it, the same
    tree has a program that is taken."""
    with tempfile.TemporaryDirectory(prefix="test-release-") as room:
        tree = f"{room}/tree"
        subprocess.run(
            ["git", "clone", "-q", "--shared", ROOT, tree], check=True, capture_output=True
        )
        put_program(tree)
        if release_marks.simulator(tree) != f"{tree}/{PROGRAM}":
            raise Fault(f"{case.what}: a program whose mark fits isn't taken")
        case.make(tree)
        status, said = release(tree, room, case.gate)
        if status != 1 or case.words not in said:
            raise Fault(f"{case.what} isn't refused: status {status}, {said or 'nothing is said'}")
        if os.path.exists(f"{room}/made"):
            raise Fault(f"{case.what}: something is made")


def refusals(step):
    """Tries all cases, each with a line by this call."""
    if not shutil.which("rt"):
        raise Fault("there is no rt on the path, by which tools/release knows what is proved")
    for case in CASES:
        refused(case)
        step(f"refused: {case.what}")
