"""What tools/conform says of a program: that it conforms, and which of its answers is another
one."""

import pytest
from page_claims import tool

CONFORM = tool("conform")

# Programs in place of the simulator, and what is said of each, but for the first line that differs.
RIGHT = (
    'cat > /dev/null; case "$1" in run) echo ok; echo frames;; *) echo "bad word $1" >&2; exit '
    "3;; esac"
)
PROGRAMS = (
    (RIGHT, 0, "2 passed, 0 failed\n"),
    (
        RIGHT.replace("echo ok", "echo no"),
        1,
        "topic/first, run: line 1: wanted 'ok', got 'no'\n1 passed, 1 failed\n",
    ),
    (
        RIGHT.replace("; echo frames", ""),
        1,
        "topic/first, run: line 2: wanted 'frames', got ''\n1 passed, 1 failed\n",
    ),
    (
        RIGHT.replace("echo frames", "echo frames; echo more"),
        1,
        "topic/first, run: line 3: wanted '', got 'more'\n1 passed, 1 failed\n",
    ),
    (
        RIGHT.replace("bad word", "word"),
        1,
        (
            "topic/second, walk: standard error, line 1: wanted 'bad word walk', got 'word "
            "walk'\n1 passed, 1 failed\n"
        ),
    ),
    (
        RIGHT.replace("exit 3", "exit 4"),
        1,
        "topic/second, walk: status 4 in place of 3: bad word walk\n1 passed, 1 failed\n",
    ),
    (
        RIGHT.replace("echo ok", "echo why >&2; echo ok"),
        1,
        "topic/first, run: standard error, line 1: wanted '', got 'why'\n1 passed, 1 failed\n",
    ),
    (
        RIGHT.replace("echo ok", "sleep 9"),
        1,
        "topic/first, run: it hangs, after 0.5 s\n1 passed, 1 failed\n",
    ),
)

FILES = {
    "first.script": "# Shows: two answers\nask\n",
    "first.expected": "ok\nframes\n",
    "second.script": "# Shows: a refusal\n",
    "second.args": "walk\n",
    "second.errors": "bad word walk\n",
    "second.status": "3",
    "third.script": "# Shows: no command line's\n",
    "third.args": "-\n",
}


@pytest.fixture
def topic(tmp_path, monkeypatch):
    """A folder of three scripts in place of the repository's."""
    folder = tmp_path / "topic"
    folder.mkdir()
    for name, text in FILES.items():
        (folder / name).write_text(text, encoding="utf-8")
    monkeypatch.setattr(CONFORM, "folders", lambda: [str(folder)])
    monkeypatch.setattr(CONFORM, "LIMIT", 0.5)
    return folder


@pytest.fixture
def program(tmp_path):
    """Writes a program of the shell; returns its path."""

    def make(lines):
        path = tmp_path / "program"
        path.write_text(f"#!/bin/sh\n{lines}\n", encoding="utf-8")
        path.chmod(0o755)
        return str(path)

    return make


@pytest.mark.parametrize("lines, status, said", PROGRAMS)
def test_programs(topic, program, capsys, lines, status, said):
    assert CONFORM.main([program(lines)]) == status
    assert capsys.readouterr().out == said


def test_some_of_the_scripts(topic, program, capsys):
    assert CONFORM.main(["--only", "sec", program(RIGHT.replace("echo ok", "echo no"))]) == 0
    assert capsys.readouterr().out == "1 passed, 0 failed\n"


@pytest.mark.parametrize(
    "words, status", ((["--only", "nothing", "/bin/true"], 1), (["/nowhere/program"], 2), ([], 2))
)
def test_what_shows_nothing_is_no_pass(topic, words, status):
    assert CONFORM.main(words) == status
