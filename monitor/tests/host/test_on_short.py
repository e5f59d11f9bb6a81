"""A shortage that lasts: the operator's command is run for it once. Guests have 128 pages."""

import os
import re
import stat
import time

import pytest
from bigvasta.connection import Connection
from linux_kit import ROOT
from played import Played
from tenants import FREE, eventually, has_ended
from test_strict import GIVEN, STRICT, Later
from vhost_client import Client

# Seconds of a host's patience here.
PATIENCE = 1

# It notes its words and its environment, but for what the shell adds, and then does more.
COMMAND = """#!/bin/sh
echo "$# $1 $2 $(env | grep -v ^PWD= | sort | tr '\\n' ' ')$(id -u)" >> {log}
{more}
"""


class Command:
    """A command of an operator's, and what it has noted."""

    def __init__(self, folder):
        self.path, self.log = f"{folder}/command", f"{folder}/log"

    def make(self, more=""):
        """Writes the program."""
        with open(self.path, "w", encoding="ascii") as file:
            file.write(COMMAND.format(log=self.log, more=more))
        os.chmod(self.path, stat.S_IRWXU)
        return self

    def options(self):
        """Returns the options of a host that runs it."""
        return (*STRICT, "--patience", str(PATIENCE), "--on-short", self.path)

    def noted(self):
        """Returns what it has noted each time."""
        if not os.path.exists(self.log):
            return []
        with open(self.log, encoding="ascii") as lines:
            return lines.read().splitlines()


@pytest.fixture
def command(tmp_path):
    """An operator's command."""
    return Command(str(tmp_path)).make()


def two(lender, come):
    """Two guests come that need all that they have; the lower one is `b`."""
    for name, priority in (("a", 2), ("b", 1)):
        come(lender, name, {FREE: 0}, f"priority={priority}")


def shortages(lender):
    """Returns the counters of shortages, and whether there is one."""
    its = lender.status()["host"]
    counters = its["counters"]
    return counters["shortages"], counters["command_failures"], its["short"], its["gives_first"]


def wait_for(lender, *wanted):
    """Waits until these are so."""
    eventually(lambda: shortages(lender) == wanted, lambda: (shortages(lender), lender.said()))


# It notes what the kernel says of it: a shell might have changed that.
STATUS = """#!/usr/bin/python3
print(open("/proc/self/status").read(), file=open("{log}", "w"))
"""


def test_it_blocks_no_signal_and_has_its_own_session(lend, come, command, checked):
    """Though the host does, which waits for them in its loop; those of the host's terminal don't
    reach it."""
    with open(command.path, "w", encoding="ascii") as file:
        file.write(STATUS.format(log=command.log))
    lender = lend(1, *command.options(), program=checked)
    two(lender, come)
    lender.set_budget(156)
    noted = lambda: dict(it.split(":\t", 1) for it in command.noted() if ":\t" in it)
    assert eventually(lambda: noted().get("SigBlk")) == 16 * "0"
    assert int(noted()["NSsid"]) != os.getsid(lender.process.pid)


def test_it_is_run_once_for_a_shortage_that_lasts(lend, come, command):
    """With the guest of the lowest priority, and the MiB that are missing: 100 pages are a part of
    one."""
    lender = lend(1, *command.options())
    two(lender, come)
    begin = time.monotonic()
    lender.set_budget(156)
    wait_for(lender, 1, 0, True, "b")
    assert time.monotonic() - begin >= PATIENCE
    wanted = f"2 b 1 LEAST_BUDGET=1 PATH={os.environ['PATH']} WANTED=0 {os.getuid()}"
    eventually(lambda: command.noted() == [wanted], command.noted)
    time.sleep(2 * PATIENCE)
    assert command.noted() == [wanted] and shortages(lender) == (1, 0, True, "b")
    lender.set_budget(256)
    wait_for(lender, 1, 0, False, None)
    lender.set_budget(156)
    wait_for(lender, 2, 0, True, "b")
    eventually(lambda: command.noted() == [wanted] * 2, command.noted)


@pytest.mark.parametrize("page", ("HOST.md", "man/bigvasta-host.conf.5"))
def test_its_page_names_its_environment(page):
    with open(f"{ROOT}/docs/{page}", encoding="utf-8") as file:
        about = re.search(r"Its environment has.*|`on_short` is run once(?s:.*?)\n- ", file.read())[
            0
        ]
    assert set(re.findall(r"\b[A-Z_]{3,}\b", about)) - {"MIB"} == {"PATH", "WANTED", "LEAST_BUDGET"}


# Pages of a guest, and those that it waits for, which is all that is missing; and in MiB, as many
# as they need, those that are missing and wanted, and the least budget.
SIZES = ((512, 256, 1, 2), (600, 257, 2, 3), (513, 1, 1, 3))


@pytest.mark.parametrize("pages, asks, missing, least", SIZES)
def test_a_part_of_a_mib_counts_as_one(lend, command, pages, asks, missing, least):
    lender = lend(1, *command.options())
    lender.set_budget(pages - asks)
    a = Played(lender, "a", pages=pages, ballooned=asks, target=asks)
    a.deflates(asks)
    path, user = os.environ["PATH"], os.getuid()
    wanted = f"2 a {missing} LEAST_BUDGET={least} PATH={path} WANTED={missing} {user}"
    eventually(lambda: command.noted() == [wanted], command.noted)
    a.leave()


# The priorities of two guests, who has given ten pages, and who gives first.
FIRST = ((2, 1, "b", "b"), (1, 2, "a", "a"), (1, 1, "b", "a"), (1, 1, "a", "b"))


@pytest.mark.parametrize("of_a, of_b, giver, first", FIRST)
def test_who_gives_first(lend, come, of_a, of_b, giver, first):
    """The guest of the lowest priority, and of several the one to which most is lent: not one that
    has nothing yet."""
    lender = lend(1, *STRICT, "--patience", str(PATIENCE))
    guests = {
        name: come(lender, name, {FREE: 0}, f"priority={priority}")
        for name, priority in (("a", of_a), ("b", of_b))
    }
    guests[giver].give(GIVEN[:10])
    lender.become(giver, ballooned=10), lender.demand(f"{giver} target 10")
    lender.become(giver, lent=118)
    lender.demand("add c priority=0")
    newcomer = Client(f"{lender.folder}/c")
    newcomer.negotiate()
    comes = Later(newcomer.hand_over_memory)
    assert comes.waits()
    wait_for(lender, 1, 0, True, first)
    lender.set_budget(3 * 128)
    comes.ends(), newcomer.leave()


def test_it_is_not_run_for_a_shortage_that_ends(lend, come, command):
    lender = lend(1, *command.options())
    two(lender, come)
    lender.set_budget(156)
    eventually(lambda: lender.counters()["short"] == 100)
    lender.set_budget(256)
    time.sleep(2 * PATIENCE)
    assert command.noted() == [] and shortages(lender) == (0, 0, False, None)


def test_one_runs_at_a_time(lend, come, command):
    """The next one is run once that has ended, also a later lender's; nothing is left of it."""
    fifo = f"{os.path.dirname(command.path)}/fifo"
    os.mkfifo(fifo)
    command.make(f"read line < {fifo}")
    lender = lend(1, *command.options())
    two(lender, come)
    lender.set_budget(156)
    eventually(lambda: len(command.noted()) == 1, command.noted)
    lender.set_budget(256)
    wait_for(lender, 1, 0, False, None)
    lender.set_budget(156)
    wait_for(lender, 2, 0, True, "b")
    time.sleep(PATIENCE)
    assert len(command.noted()) == 1
    lender.kill()
    lender = lend(1, *command.options(), folder=lender.folder)
    for name in "ab":
        lender.become(name, answers=1)
    lender.set_budget(156)
    wait_for(lender, 1, 0, True, "b")
    time.sleep(PATIENCE)
    assert len(command.noted()) == 1
    children = f"/proc/{lender.process.pid}/task/{lender.process.pid}/children"
    for count in (1, 2):
        with open(fifo, "w", encoding="ascii") as file:
            file.write("\n")
        eventually(lambda: len(command.noted()) == 2, command.noted)
    with open(children, encoding="ascii") as its:
        assert not [it for it in its.read().split() if has_ended(it)]


FAILURES = (
    ("exit 3", "it has ended with status 3"),
    ("kill -9 $$", "it has ended with signal 9"),
    (None, "No such file or directory"),
)


@pytest.mark.parametrize("more, why", FAILURES)
def test_its_failure_is_in_the_log(lend, come, command, more, why):
    lender = lend(1, *command.make(more).options())
    if more is None:
        os.unlink(command.path)
    two(lender, come)
    lender.set_budget(156)
    wait_for(lender, 1, 1, True, "b")
    wanted = f"on-short: {command.path}: {why}"
    eventually(lambda: wanted in lender.said(), lender.said)


def test_a_shortage_is_told_of(lend, come):
    """Also where there is no command."""
    lender = lend(1, *STRICT, "--patience", str(PATIENCE))
    two(lender, come)
    with Connection(f"{lender.folder}/.control") as events:
        told = events.follow()
        lender.set_budget(156)
        short = next(it for it in told if it["event"] in ("short", "enough"))
        assert (short["event"], short["guest"], short["missing"]) == ("short", "b", 100 * 4096)
        lender.set_budget(256)
        assert next(it for it in told if it["event"] in ("short", "enough"))["event"] == "enough"
