"""What tools/plant-c plants into small files, which tests it runs over each file, and what it says
of what comes of an edit."""

import os
import random
import subprocess

import pytest
from linux_packages import Fault
from page_claims import tool
from seen_by import commands_of, parts, shipped, suites_of
from waiting import eventually
from wrong_bodies import drawn, edits_of

PLANT = tool("plant-c")

# A file, and its edits: the kind, what was there, and what is.
C = """#include <stdio.h>
/* Whether 1 < 2. */
static bool is_few(const struct list *list, unsigned most)
{
    if (list->count <= most && !list->none)
        return true;
    list->none = list->count - 5;
    say("1 < 2", most);
    switch (list->count) {
    case FEW:
        return is_few(list, 0x10);
    }
}
"""
EDITS_OF_C = [
    ("comparison", "<=", "<"),
    ("logic", "&&", "||"),
    ("logic", "!", ""),
    ("logic", "true", "false"),
    ("sign", "-", "+"),
    ("constant", "5", "6"),
    ("constant", "0x10", "0x11"),
    ("field", "count", "none"),
    ("field", "none", "count"),
    ("field", "none", "count"),
    ("field", "count", "none"),
    ("field", "count", "none"),
    ("arguments", '"1 < 2", most', 'most, "1 < 2"'),
    ("arguments", "list, 0x10", "0x10, list"),
    ("assignment", "list->none = list->count - 5;", "(void)0;"),
    ("call", 'say("1 < 2", most);', "(void)0;"),
    ("case", "case FEW:", ""),
]
PYTHON = '''"""Whether 1 < 2."""
import sys
ROWS = (
    ("a", 1),
)


def show(its, most=4):
    # 1 < 2
    if not its.few or its.count + 1 == most:
        its.few = f"{1 < 2}"
        print(its, -most)
'''
EDITS_OF_PYTHON = [
    ("constant", "1", "2"),
    ("constant", "4", "5"),
    ("logic", "not", ""),
    ("logic", "or", "and"),
    ("sign", "+", "-"),
    ("constant", "1", "2"),
    ("comparison", "==", "!="),
    ("field", "few", "count"),
    ("field", "count", "few"),
    ("field", "few", "count"),
    ("arguments", "its, -most", "-most, its"),
    ("case", '("a", 1),', ""),
    ("assignment", 'its.few = f"{1 < 2}"', "pass"),
    ("call", "print(its, -most)", "pass"),
]


@pytest.mark.parametrize(
    "path, text, wanted",
    (("a.c", C, EDITS_OF_C), ("a.py", PYTHON, EDITS_OF_PYTHON)),
    ids=("C", "Python"),
)
def test_what_is_planted(path, text, wanted):
    assert [(it.kind, text[it.begin : it.end], it.new) for it in edits_of(path, text)] == wanted


def test_what_is_drawn():
    edits = edits_of("a.c", C)
    draws = [list(drawn(edits, random.Random(it))) for it in (1, 1, 2)]
    assert draws[0] == draws[1] != draws[2] and all(sorted(it) == sorted(edits) for it in draws)
    # One kind is no likelier than another, however many edits each has.
    firsts = {next(drawn(edits, random.Random(it))).kind for it in range(100)}
    assert firsts == {it.kind for it in edits}


# A file that is shipped, and the suites that see it, the narrowest first; of the first one, the
# first test.
SEEN = (
    ("monitor/backends/control/answers.c", ["control", "host"], None),
    (
        "monitor/backends/settings/config.c",
        ["control", "host"],
        "monitor/tests/control/test_config.py",
    ),
    ("monitor/backends/lender/limits.c", ["host", "control"], "monitor/tests/host/test_limits.py"),
    ("monitor/backends/pci/virtio_pci.c", ["pci-proxy"], None),
    ("monitor/backends/process/lent.c", ["vhost-user", "host", "control"], None),
    (
        "client/bigvasta/picture.py",
        ["control", "plan"],
        "monitor/tests/control/test_client_words.py",
    ),
    ("client/bigvasta/plan/days.py", ["plan", "fleet"], "monitor/tests/plan/test_days.py"),
    ("client/bigvasta/plan/placing.py", ["fleet", "plan"], "monitor/tests/fleet/test_placing.py"),
)


@pytest.mark.parametrize("path, suites, first", SEEN)
def test_who_sees_a_file(path, suites, first):
    assert suites_of(path) == suites and (
        first is None or first == next(it for it in commands_of(path)[0] if it.endswith(".py"))
    )


def test_slow_tests_are_the_last_ones():
    """Those that play days are in the host's suite, and mention each file of the daemons."""
    files = [os.path.basename(it) for it in commands_of("monitor/backends/lender/limits.c")[0]]
    slow = {"test_days.py", "test_every.py", "test_moves.py"}
    assert slow <= set(files) and not slow & set(files[:-10])


def test_each_file_that_is_shipped_is_seen():
    assert not [it for it in shipped() if not commands_of(it)]
    assert commands_of("monitor/include/balloon.h")[0][:4] == ("make", "-C", "monitor", "c-test")


# A file in a tree of its own, and its tests, in a shell: one fails once alone, as on a busy
# machine, and one always.
ADD = "int add(int a, int b)\n{\n    int sum = a + b;\n    return sum > 0 ? sum : sum * 1;\n}\n"
SHELL = """
fails() { echo "FAILED monitor/tests/test_add.py::test_$1 - no"; exit 1; }
asked() {
    case "$*" in
    *--deselect*test_$name*) false ;; *--deselect* | *test_$name*) true ;; *test_*) false ;; esac
}
name=time; asked "$*" && { test -e once || { touch once; fails time; }; }
name=always; asked "$*" && fails always
name=sums; asked "$*" && ! grep -q 'a + b' monitor/add.c && fails sums
exit 0"""
TEST = ("sh", "-c", SHELL, "sh", "-q")
OUTCOMES = (
    ("+", "-", "refused by test_add.py::test_sums"),
    (">", ">=", "the same object"),
    ("a + b", "a +", "isn't compiled"),
    ("1", "2", "PASSED"),
)


@pytest.fixture
def tree(tmp_path, monkeypatch):
    """A tree of one file, and its copy."""
    (tmp_path / "monitor").mkdir()
    (tmp_path / "monitor/add.c").write_text(ADD)
    for words in ("init", "-q"), ("add", "."):
        subprocess.run(["git", *words], cwd=tmp_path, check=True)
    for name, value in {
        "ROOT": str(tmp_path),
        "sources_of": lambda path: [path],
        "commands_of": lambda _: [TEST],
        "shipped": lambda: ["monitor/add.c"],
    }.items():
        monkeypatch.setattr(PLANT, name, value)
    return tmp_path / "monitor/add.c"


@pytest.mark.parametrize("old, new, outcome", OUTCOMES)
def test_what_comes_of_an_edit(tree, tmp_path_factory, old, new, outcome):
    folder = tmp_path_factory.mktemp("copy")
    begin = ADD.index(old)
    edit = edits_of("monitor/add.c", ADD)[0]._replace(begin=begin, end=begin + len(old), new=new)
    assert PLANT.Tree(str(folder)).judged(edit) == outcome
    assert tree.read_text() == (folder / "monitor/add.c").read_text() == ADD


# Commands that aren't pytest's: one fails as the file was, too, one fails once, as on a busy
# machine, and others fail by what the edit does, which a line says before make's.
CHECK = "grep -q 'a + b' monitor/add.c"
SAYS = "echo add.c:9: not so: sum == 3; echo ok  others; echo make: Error 1; exit 1"
MADE = (
    ("exit 1", "PASSED"),
    ("test -e once || { touch once; exit 1; }", "PASSED"),
    (f"{CHECK} || {{ {SAYS}; }}", "refused by add.c:9: not so: sum == 3"),
    (f"{CHECK} || {{ echo add: 7; echo make: Error 1; exit 1; }}", "refused by add: 7"),
)


@pytest.mark.parametrize("shell, outcome", MADE)
def test_what_comes_of_tests_in_c(tree, tmp_path, monkeypatch, shell, outcome):
    monkeypatch.setattr(PLANT, "commands_of", lambda _: [("sh", "-c", shell)])
    edit = next(it for it in edits_of("monitor/add.c", ADD) if it.kind == "sign")
    assert PLANT.Tree(str(tmp_path / "copy")).judged(edit) == outcome


def test_a_file_that_is_wrong_already(tree, monkeypatch):
    tree.write_text(ADD.replace("int sum", "sum"))
    monkeypatch.setattr(PLANT, "core_of", lambda: None)
    with pytest.raises(Fault, match="monitor/add.c isn't compiled as it is"):
        PLANT.main(["--count", "1", "--jobs", "2"])


def test_a_part_of_each_folder_is_compiled(tmp_path):
    its, copy = sorted({it for each in parts().values() for it in each}), PLANT.Tree(str(tmp_path))
    for path in {os.path.dirname(it): it for it in its}.values():
        assert copy.object_of(path) is not None, path


def runs(process):
    """Whether a process runs."""
    try:
        with open(f"/proc/{process}/cmdline", encoding="ascii") as file:
            return file.read() != ""
    except FileNotFoundError:
        return False


def test_a_suite_leaves_no_process(tree, tmp_path):
    its = PLANT.Tree(str(tmp_path / "copy"))
    said = its.said(["sh", "-c", "sleep 1000 >/dev/null 2>&1 & echo $!; exit 1"])
    eventually(lambda: not runs(int(said)))


def test_as_many_are_tried_as_are_asked_for():
    """One worker finds none left while another's doesn't count: then that one draws another."""
    planting = PLANT.Planting(iter("abc"), 1, True)
    assert [planting.next(), planting.next()] == ["a", None]
    planting.note("a", PLANT.SAME)
    assert [planting.next(), planting.next()] == ["b", None]


def test_other_users_may_read_a_copy(tree, monkeypatch):
    modes = []
    monkeypatch.setattr(PLANT, "core_of", lambda: None)
    monkeypatch.setattr(
        PLANT.Planting,
        "work",
        lambda _, folder: modes.append(os.stat(os.path.dirname(folder)).st_mode & 0o777),
    )
    PLANT.main([])
    assert modes == [0o755]


# The last lines of a run, and the test that failed.
SAID = (
    ("FAILED a/b.py::test_c", "a/b.py::test_c"),
    ("ERROR a/b.py::test_c - no [1]", "a/b.py::test_c"),
    ("FAILED a/b.py::test_c[d = 1-e] - x == [2]", "a/b.py::test_c[d = 1-e]"),
    ("FAILED a/b.py::test_c[d - [e]-f]", "a/b.py::test_c[d - [e]-f]"),
    ("ERROR a/b.py", "a/b.py"),
    ("make: *** [Makefile:9: test] Error 1", None),
)


@pytest.mark.parametrize("line, test", SAID)
def test_which_test_failed(line, test):
    assert PLANT.failed_test(f"== summary ==\n{line}\n1 failed in 2 s\n") == test


def test_what_is_said(tree, monkeypatch, capsys):
    monkeypatch.setattr(PLANT, "core_of", lambda: None)
    status = PLANT.main(["--seed", "3", "--count", "9", "--jobs", "2"])
    *lines, last = capsys.readouterr().out.splitlines()
    assert status == 1 and sorted(lines) == [
        "monitor/add.c:3: sign: + -> -: refused by test_add.py::test_sums",
        "monitor/add.c:4: constant: 1 -> 2: PASSED",
    ]
    # Whatever a sum is compared with, both results are the sum.
    assert last == "seed 3: 0 listed, 2 tried, 1 refused, 1 passed; 0 not compiled, 2 the same"


def test_what_is_listed(tree, monkeypatch, capsys):
    monkeypatch.setattr(PLANT, "core_of", lambda: None)
    monkeypatch.setattr(PLANT, "commands_of", None)
    assert PLANT.main(["--seed", "3", "--count", "9", "--list"]) == 0
    *lines, last = capsys.readouterr().out.splitlines()
    assert sorted(lines) == [
        "monitor/add.c:3: sign: + -> -: no test was run",
        "monitor/add.c:4: constant: 1 -> 2: no test was run",
    ]
    assert last == "seed 3: 2 listed, 0 tried, 0 refused, 0 passed; 0 not compiled, 2 the same"


def test_a_file_that_is_not_shipped(tree, monkeypatch, capsys):
    monkeypatch.setattr(PLANT, "core_of", lambda: None)
    with pytest.raises(SystemExit):
        PLANT.main(["--only", "monitor/other.c"])
    assert "monitor/other.c: not shipped" in capsys.readouterr().err
