"""What a host has as it starts: what its command line says, else what its file says, else what
bigvasta-host.conf(5) names."""

import subprocess

import pytest
from hosts import Host
from test_config import TAKEN, filled
from waiting import PATIENCE, patience_from_now

MIB, PAGE = 1 << 20, 4096

# The numbers of the man page, as a status shows them.
USUAL = {
    "keep": 0,
    "lowest_budget": 0,
    "floor": 12 * MIB,
    "reserve": 5,
    "overdraft": 0,
    "strict": False,
    "step": 8,
    "period": 0.2,
    "patience": 10,
    "on_short": None,
}

# What a command line says before a file with other words, also where that is 0, and what is shown.
FILE = {
    "keep": "1M",
    "lowest_budget": "40M",
    "floor": "3M",
    "reserve": "7",
    "overdraft": "2M",
    "step": "7",
    "period": "100",
    "patience": "7",
    "on_short": "/bin/true",
}
SAID = (
    ("keep", "2", 2 * MIB),
    ("keep", "0", 0),
    ("lowest_budget", "39", 39 * MIB),
    ("lowest_budget", "0", 0),
    ("floor", "1", MIB),
    ("floor", "0", 0),
    ("reserve", "3", 3),
    ("reserve", "0", 0),
    ("overdraft", "9", 9 * PAGE),
    ("overdraft", "0", 0),
    ("step", "5", 5),
    ("step", "0", 0),
    ("period", "300", 0.3),
    ("patience", "9", 9),
    ("on_short", "/bin/false", "/bin/false"),
)


@pytest.fixture
def starts(program, folder):
    """Starts a host by a file with this text, and these words alone."""
    begun = []

    def start(text, *words):
        (folder / "host.conf").write_text(text)
        starter = ("-c", f'exec "$0" --config "$1" {" ".join(words)}', program)
        begun.append(Host("sh", folder, *starter, f"{folder}/host.conf"))
        assert begun[-1].lines.next(patience_from_now()) == "ready"
        return begun[-1]

    yield start
    for it in begun:
        assert it.end() == 0, it.said()


def test_what_nobody_says_is_as_the_page_says(starts, folder):
    its = starts(f"[host]\nfolder = {folder}\nbudget = 480M\n").status()
    assert {it: its[it] for it in USUAL} == USUAL


@pytest.mark.parametrize("key, old, new, shown, value", TAKEN, ids=[it[0] for it in TAKEN])
def test_what_the_file_says(starts, folder, key, old, new, shown, value):
    assert shown(starts(filled(folder, old, new))) == value, key


@pytest.mark.parametrize("key, word, value", SAID)
def test_what_the_command_line_says_is_before_the_file(starts, folder, key, word, value):
    lines = "".join(f"{it} = {its}\n" for it, its in FILE.items())
    text = f"[host]\nfolder = {folder}\nbudget = 480M\n{lines}"
    assert starts(text, f"--{key.replace('_', '-')}", word).status()[key] == value


@pytest.mark.parametrize("words, most", (((), 64), (("--guests", "7"), 7)))
def test_how_many_guests_there_may_be(starts, folder, words, most):
    text = f"[host]\nfolder = {folder}\nbudget = 480M\n"
    assert starts(text, *words).status()["most_guests"] == most


# Words of options that no file could say: `config` would print what isn't taken.
NONE = (("on-short", "true"), ("on-short", f"/{127 * 'x'}"), ("step", 2**32 - 1))


@pytest.mark.parametrize("name, word", (*NONE, ("overdraft", 2**32 - 1)))
def test_words_that_are_not_taken(program, folder, name, word):
    words = [program, str(folder), "--budget", "480", f"--{name}", str(word)]
    ran = subprocess.run(words, input="quit\n", capture_output=True, text=True, timeout=PATIENCE)
    assert (ran.returncode, ran.stderr.splitlines()[:1]) == (
        2,
        [f"--{name}: {word} can't be taken"],
    )


def test_a_folder_that_is_named_from_here(program, folder):
    """Its sockets have paths for others, and its configuration is one that a host takes."""
    words = 'cd "$1" && shift && exec "$0" . --budget 480 "$@"'
    host = Host("sh", folder, "-c", words, program, str(folder))
    assert host.lines.next(patience_from_now()) == "ready", host.said()
    assert host.ask("add", name="a")["guest"]["socket"] == f"{folder}/a"
    file = folder / "host.conf"
    file.write_text(host.ask("config")["config"])
    ran = subprocess.run([program, "--check", str(file)], capture_output=True, timeout=PATIENCE)
    assert (ran.returncode, ran.stderr, host.end()) == (0, b"", 0)


def test_each_key_of_the_host_is_tried():
    """Each that a status shows, but for the budget and `strict`, of which a flag says more
    alone."""
    shown = {it[0].removesuffix(" of [host]") for it in TAKEN if it[0].endswith(" of [host]")}
    assert shown - {"budget", "strict"} | {"period"} == set(FILE) == {it[0] for it in SAID}
    assert set(USUAL) == set(FILE) | {"strict"}
