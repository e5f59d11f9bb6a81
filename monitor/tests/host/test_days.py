"""Days of a strict host whose guests are simulated (days/): each of their steps takes a moment, at
random a long one, in a time of their own, so that a day takes half a second of a processor. The
lender is the program as it is. At no step have guests more than the budget; and where what they
want fits, nobody waits for good. DAYS in the environment is how many days of each kind there are,
and SEED how many of each come before them, which aren't played (tools/play-days plays many)."""

import os
import subprocess
import tempfile
from typing import NamedTuple

import linux_kit
import pytest

# How many days of each kind, and before them; the seconds of each, of its time and of a processor's
# at most.
DAYS, SEED = (int(os.environ.get(*it)) for it in (("DAYS", "10"), ("SEED", "0")))
SECONDS, LIMIT = 600, 60

# Pages of a MiB.
MIB = 256

# A day ends by its processor's time.
pytestmark = pytest.mark.timeout(0)


class Day(NamedTuple):
    """Guests of 244 MiB, some of which may reboot after each of their works, and MiB for all; by
    how many MiB what they want passes what fits, how many times as long as usually their steps
    take, whether the lender is killed every 10 seconds at most, how many MiB of overdraft it has,
    and of how many messages one is lost; whether the working set moves (test_moves.py), and the
    last guest's weight; after how many seconds who waits lets others pass.
    """

    guests: int
    budget: int
    reboots: int = 0
    beyond: int = 0
    slow: int = 1
    killed: int = 0
    overdraft: int = 0
    moves: int = 0
    loses: int = 0
    weight: int = 0
    lets_pass: int = 10


# The last numbers are of works that are done on a day, at least, and of the first day: a lender
# that lends a guest again by the last target that its process has heard, which its driver is still
# to read, doesn't survive day 25 of `killed`.
KINDS = {
    "shift": (Day(4, 560), 700, 1),
    "two": (Day(2, 300), 300, 1),
    "many": (Day(6, 800), 1000, 1),
    "reboots": (Day(3, 480, reboots=1), 500, 1),
    "slow": (Day(4, 560, slow=30), 100, 1),
    "slow-reboots": (Day(3, 480, reboots=1, slow=30), 100, 1),
    "killed": (Day(4, 560, killed=1), 300, 20),
    "killed-reboots": (Day(3, 480, reboots=1, killed=1), 100, 1),
    "lost": (Day(2, 300, loses=20), 300, 1),
    "floors": (Day(3, 300, beyond=30), 300, 1),
    "overdraft": (Day(3, 480, beyond=50, overdraft=16), 400, 1),
    "two-reboot": (Day(4, 700, reboots=2, slow=10, lets_pass=1), 300, 1),
}


def live(program, folder, number, day):
    """Returns the status of a day, and its numbers by their names."""
    numbers = {
        "DAY": number,
        "SECONDS": SECONDS,
        "FOLDER": folder,
        **{name.upper(): it for name, it in day._asdict().items()},
    }
    # Other tests measure delays, so that days may wait long for a processor.
    words = [
        "prlimit",
        f"--cpu={LIMIT}",
        "nice",
        "-n",
        "5",
        program,
        folder,
        "--budget",
        str(day.budget),
        "--strict",
        "--overdraft",
        str(day.overdraft * MIB),
        "--patience",
        str(day.lets_pass),
        "--program",
        "/bin/true",
    ]
    with tempfile.TemporaryFile("w+") as lines:
        if day.weight > 0:
            lines.write(f"terms guest-{day.guests} weight={day.weight}\n")
            lines.seek(0)
        ran = subprocess.run(
            words,
            env=os.environ | {name: str(it) for name, it in numbers.items()},
            stdin=lines,
            capture_output=True,
            text=True,
        )
    return ran.returncode, ran.stdout.replace("ready\n", "").replace("ok\n", "")


def numbers_of(said):
    """Returns the numbers of a day that has ended well."""
    words = said.split()
    return dict(zip(words[0::2], map(int, words[1::2])))


# Wrong hosts of tests/mutants/wrong_host.c, on which days each is found, and what one of the first
# of these says.
FOUND_IN = 10
HAVE_MORE, WAITS = "have more than the budget", "waits for a deflate"
GETS_MORE = "gets pages above the budget that others still give"
WRONG = {
    "11": ("shift", WAITS),
    "12": ("shift", WAITS),
    "13": ("shift", HAVE_MORE),
    "14": ("shift", WAITS),
    "15": ("shift", GETS_MORE),
    "16": ("shift", HAVE_MORE),
    "17": ("shift", WAITS),
    "18": ("shift", WAITS),
    "19": ("shift", WAITS),
    "20": ("shift", WAITS),
    "33": ("lost", WAITS),
    "34": ("lost", "hasn't heard its target"),
    "35": ("overdraft", GETS_MORE),
    "36": ("floors", WAITS),
    "37": ("two-reboot", "waits for a new life"),
    "39": ("shift", HAVE_MORE),
    "40": ("killed", HAVE_MORE),
}


@pytest.fixture(scope="session")
def host():
    return linux_kit.built("simulated/vhost_user_host")


@pytest.mark.parametrize("kind", KINDS)
def test_nobody_waits_for_good(host, kind, tmp_path_factory):
    day, least, first = KINDS[kind]
    for number in range(first + SEED, first + SEED + DAYS):
        status, said = live(host, str(tmp_path_factory.mktemp("d")), number, day)
        assert status == 0, f"day {number}: {said}"
        found = numbers_of(said)
        assert found["works"] >= least and found["waited"] > 0, f"day {number}: {said}"


def test_where_too_much_is_wanted_guests_wait_for_good(host, tmp_path_factory):
    """Then all are out of memory, and nobody can give a page: that is seen."""
    _, said = live(host, str(tmp_path_factory.mktemp("d")), 1, Day(3, 480, beyond=120))
    assert said.startswith("fault: guest-") and "waits for a deflate" in said, said
    assert said.count("out of memory") == 3, said


def test_an_overdraft_has_guests_go_on_that_wait_for_each_other(host, tmp_path_factory):
    """What they want is a little more than what fits. With 4 MiB more each proceeds in turn, and at
    no step have they more than that."""
    day = Day(3, 480, beyond=60)
    status, said = live(host, str(tmp_path_factory.mktemp("d")), 4, day)
    assert status == 1 and WAITS in said, said
    status, said = live(host, str(tmp_path_factory.mktemp("d")), 4, day._replace(overdraft=4))
    assert status == 0 and numbers_of(said)["works"] >= 500, said


def test_a_day_of_one_number_is_always_the_same(host, tmp_path_factory):
    first, second, other = (
        live(host, str(tmp_path_factory.mktemp("d")), it, KINDS["reboots"][0]) for it in (1, 1, 2)
    )
    assert first == second != other


@pytest.mark.parametrize("number", [pytest.param(it, marks=pytest.mark.wrong(it)) for it in WRONG])
def test_a_wrong_host_is_found(number, tmp_path_factory, monkeypatch):
    monkeypatch.setenv("HOST_WRONG", number)
    host, (kind, words) = linux_kit.built("simulated-wrong/vhost_user_host"), WRONG[number]
    day, _, first = KINDS[kind]
    for number_of_day in range(first, first + FOUND_IN):
        status, said = live(host, str(tmp_path_factory.mktemp("d")), number_of_day, day)
        if status != 0:
            break
    print(f"wrong host {number}, day {number_of_day} of {kind}: {said.splitlines()[0]}")
    assert status == 1 and words in said, said
