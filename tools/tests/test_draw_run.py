"""The numbers of tools/draw-run beside numbers worked out by hand, its refusals, its pictures.
./vb_sim answers the scripts, or the program that the environment's VB_SIM names."""

import csv
import os
import subprocess

import pytest
from run_picture import held, load_library
from run_points import Fault, Point, events_asked_about
from run_tables import (
    FIRST_PATH,
    GIVE_BACK,
    LIVES,
    LIVES_SCRIPT,
    NO_FRAME,
    NO_FRAME_SCRIPT,
    PACED,
    PACED_BALANCE,
    REPORTING,
    ROGUE,
    TWO_GUESTS,
)

ROOT = os.path.realpath(os.path.join(os.path.dirname(__file__), "../.."))
TOOL = f"{ROOT}/tools/draw-run"
PROGRAM = os.environ.get("VB_SIM", f"{ROOT}/vb_sim")

COUNTED = (
    "ballooned",
    "actual",
    "target",
    "free",
    "used",
    "giving",
    "lent",
    "taking",
    "stranded",
    "reporting",
)
COLUMNS = ("event", "frames_used", "frames_free", "guest", *COUNTED, "mark")


def call(*words, **environment):
    """Calls the tool; returns its status and what it said on standard error."""
    ran = subprocess.run(
        [TOOL, *words], capture_output=True, text=True, env={**os.environ, **environment}
    )
    assert ran.stdout == "", ran.stdout
    return ran.returncode, ran.stderr


def changed(words, host, guests):
    """Does what a line of a table says to the numbers of the host or of a guest."""
    _, who, *numbers = words
    if numbers == ["gone"]:
        del guests[who]
        return
    numbers_of = host if who == "host" else guests.setdefault(who, dict.fromkeys(COUNTED, 0))
    numbers_of.update(zip(numbers[0::2], map(int, numbers[1::2])))


def rows_at(event, frames, host, guests):
    """Returns the rows after an event that the questions followed."""
    ahead = {"event": event, "frames_used": host["used"], "frames_free": frames - host["used"]}
    return [{**ahead, "guest": guest, **guests[guest]} for guest in sorted(guests)] or [ahead]


def rows_of(table, asked=None):
    """Returns the rows that a table asks for, with the numbers after the events asked about, or
    after all."""
    (frames, _, count, _), *lines = [it.split(" ") for it in table.strip().split("\n")]
    rows, host, guests = [], {"used": 0}, {}
    for event in range(1, int(count) + 1):
        here = [it for it in lines if it[0] == str(event)]
        for words in (it for it in here if it[2] != "mark"):
            changed(words, host, guests)
        if asked is None or event in asked:
            rows.extend(rows_at(event, int(frames), host, guests))
        rows.extend(
            {"event": event, "guest": it[1], "mark": " ".join(it[3:])}
            for it in here
            if it[2] == "mark"
        )
    return [{name: str(row.get(name, "")) for name in COLUMNS} for row in rows]


def test_what_the_page_of_the_program_shows(tmp_path):
    """The example of vb_sim(1), whose program is the one that is tried here."""
    with open(f"{ROOT}/docs/man/vb_sim.1", encoding="utf-8") as page:
        block = page.read().split("\n.EX\n$ ")[1].split("\n.EE\n")[0]
    command, *lines = block.replace("\\e", "\\").splitlines()
    (tmp_path / "vb_sim").symlink_to(PROGRAM)
    ran = subprocess.run(
        ["sh", "-c", command],
        capture_output=True,
        text=True,
        env={**os.environ, "PATH": f"{tmp_path}:{os.environ['PATH']}"},
    )
    assert (ran.returncode, ran.stderr, ran.stdout.splitlines()) == (0, "", lines)


class Folder:
    """A folder of a test, with the files that it writes."""

    def __init__(self, path):
        self.path = path

    def file(self, name, contents):
        """Writes a file; returns its path."""
        path = f"{self.path}/{name}"
        with open(path, "wb") as opened:
            opened.write(contents)
        return path

    def program(self, name, lines):
        """Writes a program of the shell in place of vb_sim; returns its path."""
        path = self.file(name, f"#!/bin/sh\n{lines}\n".encode())
        os.chmod(path, 0o755)
        return path

    def demand_numbers(self, script, table, *words, asked=None):
        """Demands that the numbers of a script are those of a table."""
        path = f"{self.path}/numbers.csv"
        status, said = call(script, "--csv", path, "--program", PROGRAM, *words)
        assert status == 0, said
        with open(path, encoding="utf-8", newline="") as opened:
            numbers = csv.DictReader(opened)
            assert list(numbers) == rows_of(table, asked)
            assert tuple(numbers.fieldnames) == COLUMNS

    def demand_refused(self, *words, said, **environment):
        """Demands that a call ends with one line and a status that isn't 0, and writes nothing."""
        before = sorted(os.listdir(self.path))
        status, error = call(*words, **environment)
        assert (status, error) == (1, f"{said}\n")
        assert sorted(os.listdir(self.path)) == before


@pytest.fixture
def folder(tmp_path):
    return Folder(str(tmp_path))


EXAMPLES = {
    "examples/first-path": FIRST_PATH,
    "crates/vb_conformance/data/requests/pages-given-and-asked-back": GIVE_BACK,
    "crates/vb_conformance/data/requests/devices-of-both-paces": PACED,
    "examples/paced-balance": PACED_BALANCE,
    "crates/vb_conformance/data/reports/report-and-statistics": REPORTING,
    "examples/rogue": ROGUE,
    "examples/two-guests": TWO_GUESTS,
}


@pytest.mark.parametrize("name", EXAMPLES)
def test_examples(folder, name):
    folder.demand_numbers(f"{ROOT}/{name}.script", EXAMPLES[name])


@pytest.mark.parametrize(
    "every, asked", (("1", None), ("2", range(2, 17, 2)), ("5", (5, 10, 15, 16)))
)
def test_each_nth_event_and_the_last_one(folder, every, asked):
    folder.demand_numbers(
        folder.file("lives.script", LIVES_SCRIPT), LIVES, "--every", every, asked=asked
    )


def test_no_frame_at_init(folder):
    folder.demand_numbers(folder.file("small.script", NO_FRAME_SCRIPT), NO_FRAME)


@pytest.mark.parametrize(
    "events, every, wanted",
    (
        (3, None, [1, 2, 3]),
        (2000, None, [*range(1, 2001)]),
        (2001, None, [*range(2, 2001, 2), 2001]),
        (7, 10, [7]),
    ),
)
def test_how_many_points(events, every, wanted):
    assert events_asked_about(events, every) == wanted


@pytest.mark.parametrize(
    "name, contents, said",
    (
        ("bad.script", b"host 64\nspare immediate\n\nplug 64 8\n", "script: line 4: bad line"),
        ("empty.script", b"# nothing\n\n", "draw-run: PATH has no events"),
        ("host.script", b"host 64\nspare paced\n", "draw-run: PATH has no events"),
        ("none.script", None, "draw-run: PATH: No such file or directory"),
    ),
)
def test_scripts_that_are_refused(folder, name, contents, said):
    path = f"{folder.path}/{name}" if contents is None else folder.file(name, contents)
    folder.demand_refused(
        path, "--csv", f"{folder.path}/out", "--program", PROGRAM, said=said.replace("PATH", path)
    )


@pytest.mark.parametrize(
    "lines, said",
    (
        ("kill -9 $$", "PATH was ended by signal 9"),
        ("echo first >&2; echo why >&2; exit 70", "PATH ended with status 70: why"),
        ("cat > /dev/null", "PATH gave 0 replies to 1 events"),
        (
            (
                "if grep -q frames; then printf 'ok\\nframes used 0 free 1\\n'; else echo 'no "
                "guest'; fi"
            ),
            "event 1 is answered 'no guest', but 'ok' with questions put in",
        ),
        (
            "if grep -q frames; then printf 'ok\\nframes used 0\\n'; else echo ok; fi",
            "no answer to a question: used 0",
        ),
        (None, "PATH: No such file or directory"),
    ),
)
def test_programs_that_are_refused(folder, lines, said):
    script = folder.file("some.script", b"host 1\nreset 0\n")
    path = f"{folder.path}/none" if lines is None else folder.program("program", lines)
    said = f"draw-run: {said.replace('PATH', path)}"
    folder.demand_refused(script, "--csv", f"{folder.path}/out", "--program", path, said=said)


def test_names_of_pictures(folder):
    name = f"{folder.path}/run.pdf"
    folder.demand_refused(
        "some.script",
        "-o",
        name,
        said=f"draw-run: {name}: the name of a picture ends in .svg or .png",
    )


# A program that answers one event, and questions about it.
ANSWERING = "if grep -q frames; then printf 'ok\\nframes used 0 free 1\\n'; else echo ok; fi"


def test_without_the_library(folder):
    os.mkdir(f"{folder.path}/matplotlib")
    folder.file("matplotlib/__init__.py", b"raise ImportError\n")
    lacking = {"PYTHONPATH": folder.path, "PYTHONDONTWRITEBYTECODE": "1"}
    way = "apt-get install python3-matplotlib gives it to /usr/bin/python3"
    said = f"draw-run: /usr/bin/python3 has no matplotlib for a picture: {way}"
    folder.demand_refused("some.script", "-o", f"{folder.path}/run.svg", said=said, **lacking)
    answering, script = folder.program("answering", ANSWERING), folder.file(
        "some.script", b"host 1\nreset 0\n"
    )
    numbers = f"{folder.path}/numbers.csv"
    assert call(script, "--csv", numbers, "--program", answering, **lacking) == (0, "")
    assert os.path.exists(numbers)


@pytest.fixture
def library():
    """The library of pictures; a test is skipped where it isn't there."""
    try:
        return load_library()
    except Fault as fault:
        pytest.skip(str(fault))


def test_runs_of_numbers(library):
    """A guest that goes and comes again is two runs, each held to where it ends."""
    numbers = {2: 5, 3: 5, 4: 6, 7: 1, 8: 1}
    points = [
        Point(event, {}, {0: numbers[event]} if event in numbers else {}) for event in range(1, 9)
    ]
    assert held(points, lambda it: it.guests.get(0)) == [([2, 4, 5], [5, 6, 6]), ([7, 9], [1, 1])]


@pytest.mark.parametrize("name, start", (("run.svg", b"<?xml"), ("run.png", b"\x89PNG")))
def test_same_bytes_each_time(folder, library, name, start):
    answering, script = folder.program("answering", ANSWERING), folder.file(
        "some.script", b"host 1\nreset 0\n"
    )
    pictures = []
    for _ in range(2):
        assert call(script, "-o", f"{folder.path}/{name}", "--program", answering) == (0, "")
        with open(f"{folder.path}/{name}", "rb") as opened:
            pictures.append(opened.read())
    assert pictures[0] == pictures[1]
    assert pictures[0].startswith(start)
    assert b"dc:date" not in pictures[0]
