"""Whom a line of a host names: a guest where it is about one, and nobody else."""

import os
import signal
import time

import pytest
from played import TELL_GONE, TELL_REMARK, WORDS, Played
from tenants import FREE, eventually, go_on, status_of, stop, writer_of
from test_between_looks import HEARD, SELDOM, has_target
from test_strict import GIVEN
from vhost_client import PAGE


@pytest.mark.skipif(os.geteuid() != 0, reason="mounts and cgroups are for root")
def test_a_line_of_the_host_itself_names_no_guest(lend, come, limits, tmp_path):
    """It has asked a guest's writer for a limit at its last look, who hasn't answered; and then it
    has taken the answer."""
    file, its = tmp_path / "host.conf", limits("a")
    file.write_text("[host]\n")
    lender = lend(1, *SELDOM, "--period", "5000", "--strict", "--config", str(file))
    guest = come(lender, "a", {FREE: 100}, f"overhead=0 limit={its.term}")
    lender.set_budget(78)
    has_target(lender, "a", 50)
    writer = writer_of(lender, "a")
    stop(writer)
    guest.give(GIVEN[:50])
    eventually(lambda: lender.status()["guests"][0]["loan"] == 78 * PAGE)
    time.sleep(HEARD)
    said = f"{file}: read again"

    def read_again(count):
        lender.process.send_signal(signal.SIGHUP)
        eventually(lambda: sum(said in it for it in lender.said()) == count)

    read_again(1), go_on(writer)
    eventually(lambda: lender.status()["guests"][0]["limit"] == 78 * PAGE)
    read_again(2)
    assert lender.said().count(said) == 2, lender.said()


def test_words_of_a_process_end_with_its_message(lend):
    lender = lend(1, *SELDOM)
    guest = Played(lender, "a")
    guest.say(TELL_REMARK, b"x" * WORDS)
    said = "a: " + "x" * (WORDS - 1)
    eventually(lambda: lender.hear() or said in lender.said(), lender.said)
    guest.leave()


def test_words_of_a_process_take_no_line_of_what_the_host_says_of_its_guest(lend):
    """It has ended, and a look is due: what it has said since is read at once. Its words have used
    up their own lines as it says last that its client has gone."""
    lender = lend(1, "--period", "50", "--lines", "3")
    guest = Played(lender, "a")
    stop(lender.process.pid)
    eventually(lambda: status_of(lender.process.pid)["State"].startswith("T"))
    for _ in range(20):
        guest.say(TELL_REMARK, b"a remark")
    guest.say(TELL_GONE), guest.leave()
    time.sleep(0.1)
    go_on(lender.process.pid)
    lender.become("a", here=0)
    said = lender.said()
    assert "a: further lines of this second are left out" in said and "gone a" in said, said


class Deaf(Played):
    """A guest's process that reads no order."""

    def run(self):
        """Does nothing."""


def test_what_a_process_said_before_it_ended_is_heard_though_it_has_read_no_order(lend):
    """The kernel says first that what it was told is lost."""
    lender = lend(1, "--period", "50")
    guest = Deaf(lender, "a")
    looks = lender.counters()["looks"]
    eventually(lambda: lender.counters()["looks"] > looks + 1)
    stop(lender.process.pid)
    eventually(lambda: status_of(lender.process.pid)["State"].startswith("T"))
    guest.say(TELL_REMARK, b"the last words")
    guest.leave()
    go_on(lender.process.pid)
    lender.become("a", here=0)
    assert "a: the last words" in lender.said(), lender.said()
