"""A budget that follows the host's machine, so that some memory stays available to other work.
Budgets are pages; the machine's numbers come from a folder in the place of /proc."""

import os
import time

import pytest
from tenants import FREE, PAGE, eventually
from test_limits_that_change import files_of
from test_refused_words import said_by
from test_strict import Later, waits_of
from vhost_client import Client
from waiting import patience_from_now

# The operator's budget and what the machine keeps, in MiB; pages of a MiB, and those by which the
# budget rises at once: a 64th of the operator's, and one.
MOST, KEEP = 64, 40
MIB, STEP = 256, 64 * 256 // 64 + 1

# MiB of which the pages are more than 32 bits count, and without those above of no use.
HUGE = (1 << 24) + 50

# Seconds in which a budget would follow that doesn't: it does so once a second.
LONG = 3


class Machine:
    """What a machine says of its memory."""

    def __init__(self, folder):
        self.folder = str(folder)
        os.mkdir(f"{self.folder}/pressure")

    def write(self, name, text):
        """Replaces a file at once."""
        with open(f"{self.folder}/new", "w", encoding="ascii") as file:
            file.write(text)
        os.rename(f"{self.folder}/new", f"{self.folder}/{name}")

    def leaves(self, mebibytes):
        """This many MiB are available."""
        lines = ("MemTotal: 9999999 kB", "MemFree: 1 kB", f"MemAvailable:  {mebibytes * 1024} kB")
        self.write("meminfo", "\n".join((*lines, "Cached: 2 kB", "")))

    def waits(self, percent):
        """Its own work waits for this percentage of the time."""
        self.write(
            "pressure/memory", f"some avg10={percent} avg60=0.00 avg300=0.00 total=7\nfull\n"
        )


@pytest.fixture
def machine(tmp_path):
    """A machine of which 100 MiB are available."""
    it = Machine(tmp_path)
    it.leaves(100)
    return it


@pytest.fixture
def follow(lend, machine):
    """Starts lenders whose budget follows the machine."""
    words = ("--machine", machine.folder, "--floor", "0", "--reserve", "0", "--period", "100")
    return lambda *options, **how: lend(MOST, *words, "--keep", str(KEEP), *options, **how)


def budget_of(lender):
    """Returns the budget that there is, in pages."""
    return lender.status()["host"]["budget"] // PAGE


def become(lender, pages):
    """Waits until the budget is this."""
    eventually(lambda: budget_of(lender) == pages, lambda: f"{budget_of(lender)}, not {pages}")


def stays(lender, pages):
    """Demands that the budget is this for a while."""
    end = time.monotonic() + LONG
    while time.monotonic() < end:
        assert budget_of(lender) == pages
        time.sleep(0.1)


def test_it_is_what_is_left_from_the_start_and_falls_at_once(follow, machine):
    lender = follow()
    assert budget_of(lender) == (100 - KEEP) * MIB
    machine.leaves(45)
    become(lender, 5 * MIB)
    machine.leaves(KEEP - 1)
    become(lender, 1)
    its = lender.status()["host"]
    assert (its["most_budget"], its["keep"], its["lowest_budget"]) == (
        MOST * MIB * PAGE,
        KEEP * MIB * PAGE,
        0,
    )


def test_it_follows_each_second_however_seldom_guests_are_looked_at(follow, machine):
    lender = follow("--period", "60000")
    machine.leaves(45)
    become(lender, 5 * MIB)
    machine.leaves(50)
    become(lender, 5 * MIB + STEP)
    assert lender.status()["host"]["counters"]["looks"] == 0


def test_it_rises_by_a_step_a_second_up_to_the_operator_s(follow, machine):
    lender = follow()
    files = files_of(lender.process.pid)
    begin, seen, end = time.monotonic(), [budget_of(lender)], patience_from_now()
    machine.leaves(HUGE)
    while seen[-1] != MOST * MIB and time.monotonic() < end:
        seen.append(budget_of(lender))
    steps = [after - before for before, after in zip(seen, seen[1:]) if after != before]
    assert steps == 3 * [STEP] + [4 * MIB - 3 * STEP]
    assert time.monotonic() - begin > len(steps) - 1
    eventually(lambda: files_of(lender.process.pid) == files)


def test_it_stays_where_a_whole_step_isn_t_left(follow, machine):
    lender = follow()
    machine.leaves(101)  # 256 pages more
    stays(lender, 60 * MIB)
    machine.leaves(102)
    become(lender, 60 * MIB + STEP)


def test_what_guests_hold_is_no_longer_available_and_counts_as_left(follow, machine, come):
    lender = follow()
    come(lender, "a", {FREE: 0})
    held = lender.status()["host"]["held"] // PAGE
    machine.leaves(50)
    become(lender, 10 * MIB + held)
    assert held > 0


def test_a_later_lender_waits_for_what_guests_hold(follow, machine, come):
    first = follow()
    come(first, "a", {FREE: 0})
    held = first.status()["host"]["held"] // PAGE
    machine.leaves(50)
    become(first, 10 * MIB + held)
    first.kill()
    second = follow(folder=first.folder)
    seen, end = set(), time.monotonic() + LONG
    while time.monotonic() < end:
        seen.add(budget_of(second))
    become(second, 10 * MIB + held)
    assert seen <= {MOST * MIB, 10 * MIB + held}


def test_a_guest_of_the_operator_s_budget_may_wait_until_there_is_room(follow, machine):
    machine.leaves(KEEP)
    lender = follow("--strict")
    client = Client(lender.add("a"), lambda: "")
    coming = Later(client.start)
    assert coming.waits() and waits_of(lender, "a") == "room"
    machine.leaves(100)
    coming.ends()
    client.leave()


@pytest.mark.parametrize("least", (0, 59))
def test_it_falls_while_the_machine_s_own_work_waits(follow, machine, least):
    machine.waits("9.99")
    lender = follow("--lowest-budget", str(least))
    stays(lender, 60 * MIB)
    machine.waits("10.00")
    become(lender, 59 * MIB if least else 60 * MIB - 3 * STEP)


def test_it_falls_no_further_than_the_least(follow, machine):
    lender = follow("--lowest-budget", "7")
    machine.leaves(0)
    become(lender, 7 * MIB)
    assert lender.status()["host"]["lowest_budget"] == 7 * MIB * PAGE


def test_the_operator_s_budget_is_the_most(follow, machine):
    lender = follow()
    machine.leaves(1000)
    lender.set_budget(9 * MIB)
    assert budget_of(lender) == 9 * MIB
    most = 9 * MIB + 64
    lender.set_budget(most)
    seen = {budget_of(lender), lender.status()["host"]["most_budget"] // PAGE}
    assert seen < {9 * MIB, 9 * MIB + most // 64 + 1, most}
    become(lender, most)


def test_without_a_word_of_it_the_budget_is_the_operator_s(lend, machine):
    machine.leaves(0)
    lender = lend(MOST, "--machine", machine.folder)
    stays(lender, MOST * MIB)


# What is no line of a kernel's.
NO_LINES = ("", "MemTotal: 5 kB\nMemAvailable: 5 MB\n", "MemAvailable: 5 kB\n", "\nMemAvailable: 5")


@pytest.mark.parametrize("text", NO_LINES)
def test_a_machine_that_can_t_be_read_is_refused(plain, checked, machine, text):
    """By the compiler's checks, too, of which one is that nothing is read beyond its text."""
    machine.write("meminfo", text)
    words = (f"{machine.folder}/host", "--budget", "1", "--keep", "1", "--machine", machine.folder)
    os.mkdir(words[0])
    for program in plain, checked:
        said = said_by(program, *words)
        assert said == "keep: MemAvailable of the machine: No data available\n", said


def test_the_budget_stays_while_the_machine_can_t_be_read(follow, machine):
    lender = follow()
    os.rename(f"{machine.folder}/meminfo", f"{machine.folder}/gone")
    stays(lender, 60 * MIB)
    said = "the budget stays: MemAvailable of the machine: No such file or directory"
    assert lender.said().count(said) == 1
    machine.leaves(50)
    become(lender, 10 * MIB)
    os.remove(f"{machine.folder}/meminfo")
    eventually(lambda: lender.hear() or lender.said().count(said) == 2, lender.said)
