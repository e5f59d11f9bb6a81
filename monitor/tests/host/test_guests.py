"""How many guests a host may have: what it makes room for, and what it says of one too many."""

import json
import socket
import subprocess

import pytest
from bigvasta.connection import Connection
from bigvasta.statuses import Refused
from waiting import PATIENCE

# Guests that a host may have, unless it is told; and the most (vhost_user_host(1)).
USUAL, MOST = 64, 1024

# What is kept of decisions: 65,536 shares, and 512 decisions at most.
SHARES, DECISIONS = 65536, 512


def add_all(lender, n):
    """Adds n guests."""
    for number in range(n):
        lender.add(f"guest-{number}")


def full(count):
    """Returns how one more is refused."""
    return f"error: more: the host has its {count} guests: --guests"


@pytest.mark.parametrize("words, most", (((), USUAL), (("--guests", "3"), 3)))
def test_one_guest_too_many_is_refused_by_the_option_that_says_so(lend, words, most):
    lender = lend(1, *words)
    add_all(lender, most)
    assert lender.ask("add more") == full(most)
    with Connection(f"{lender.folder}/.control") as it, pytest.raises(Refused) as refused:
        it.ask("add", name="more")
    assert full(most).endswith(str(refused.value).split(": ", 1)[-1]), refused.value
    lender.demand("remove guest-0"), lender.add("more")


@pytest.mark.parametrize("word", ("0", str(MOST + 1), "x", "-1", ""))
def test_no_number_of_guests(plain, tmp_path, word):
    words = [plain, str(tmp_path), "--budget", "5", "--guests", word]
    assert subprocess.run(words, capture_output=True, timeout=PATIENCE, check=False).returncode == 2


def test_the_most_guests(lend):
    """Each is shown, told of, and in the configuration."""
    lender, names = lend(1, "--guests", str(MOST)), {f"guest-{it}" for it in range(MOST)}
    with socket.socket(socket.AF_UNIX) as follower, follower.makefile("rb") as lines:
        follower.connect(f"{lender.folder}/.status")
        follower.send(b'{"version": 1, "request": "events"}\n')
        lines.readline()
        add_all(lender, MOST)
        told = (json.loads(lines.readline()) for _ in range(MOST))
        assert {it["guest"] for it in told if it["event"] == "added"} == names
    assert {it["name"] for it in lender.status()["guests"]} == names
    with Connection(f"{lender.folder}/.control") as it:
        text = it.ask("config")["config"]
    assert text.count("[guest guest-") == MOST
    assert lender.ask("add more") == full(MOST)


@pytest.mark.parametrize("most", (1, USUAL, MOST))
def test_decisions_that_are_kept(lend, most):
    """As many as there is room for with each guest's share, also of those that leave."""
    lender, kept = lend(1, "--guests", str(most)), min(DECISIONS, SHARES // (2 * most))
    lender.decisions()
    for budget in range(2, 2 + kept + 9):
        lender.demand(f"budget {budget}")
    frames = [said["frames"] for said, _ in lender.decisions()]
    assert frames == [256 * it for it in range(2 + 9, 2 + kept + 9)]


def test_a_file_with_more_guests(plain, tmp_path):
    file = tmp_path / "host.conf"
    (tmp_path / "f").mkdir()

    def write(count):
        guests = "".join(f"[guest {it}]\nweight = 1\n" for it in range(count))
        file.write_text(f"[host]\nbudget = 5M\n{guests}")

    def start(*words):
        ran = [plain, str(tmp_path / "f"), *words]
        return subprocess.run(
            ran, input=b"quit\n", capture_output=True, timeout=PATIENCE, check=False
        )

    write(USUAL + 1)
    more = "--guests", str(USUAL + 1)
    assert start("--check", str(file), *more).returncode == 0
    assert start("--config", str(file), *more).returncode == 0
    ran = start("--check", str(file))
    said = f"65 guests, with what was changed, and the host may have {USUAL}: --guests"
    assert ran.returncode == 1 and said in ran.stderr.decode(), ran
    ran = start("--config", str(file))
    assert (
        ran.returncode == 2 and f"the host has its {USUAL} guests: --guests" in ran.stderr.decode()
    )
    write(MOST + 1)
    ran = start("--check", str(file), "--guests", str(MOST))
    said = f"line {2 * MOST + 4}: guest {MOST}: there are as many guests as can be"
    assert ran.returncode == 1 and said in ran.stderr.decode(), ran.stderr[-200:]
