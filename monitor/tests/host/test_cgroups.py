"""Limits by `memory.max` of cgroups of the second version, with guests in processes of their own,
whose memory is charged there. The kernel kills who passes its limit, and nobody else."""

import os
import select
import subprocess
import sys
import time

import pytest
from charged_guest import GIVEN
from host_places import SECOND, Cgroup, cgroups
from linux_guest import Lines
from tenants import eventually, go_on, stop, writer_of
from test_strict import STRICT, lent, waits_of

# MiB of the budget, of a guest, and beside its loan: less than a guest has in its balloon, and more
# than its process has itself.
BUDGET, GUEST, BESIDE = 96, 32, 16
PAGES_PER_MIB = 256
ALL = GUEST * PAGES_PER_MIB

pytestmark = pytest.mark.skipif(
    os.geteuid() != 0 or cgroups() != SECOND,
    reason="no cgroups of memory of the second version here: tools/test machine boots one",
)
from waiting import PATIENCE, patience_from_now


class Charged:
    """A guest in a process of its own, which begins in a cgroup."""

    program = os.path.join(os.path.dirname(__file__), "charged_guest.py")

    def __init__(self, lender, name, its):
        words = [*its.member()["before"], sys.executable, "-B", self.program, lender.folder, name]
        environment = {**os.environ, "PYTHONPATH": os.pathsep.join(sys.path)}
        self.process = subprocess.Popen(
            words, stdin=subprocess.PIPE, stdout=subprocess.PIPE, env=environment
        )
        self.lines = Lines(self.process.stdout, name)
        assert self.answer() == "here"

    def answer(self):
        """Returns its next answer."""
        return self.lines.next(patience_from_now())

    def begin(self, line):
        """Has it begin what a line says."""
        self.process.stdin.write(line.encode() + b"\n")
        self.process.stdin.flush()

    def has_answered(self):
        """Whether there is an answer."""
        return bool(self.lines.rest or select.select([self.process.stdout], [], [], 0)[0])

    def ask(self, line):
        """Has it do what a line says; returns its answer."""
        self.begin(line)
        return self.answer()

    def leave(self):
        """Goes."""
        self.process.kill()
        self.process.wait()
        self.process.stdin.close(), self.process.stdout.close()


class Seat:
    """A guest with its cgroup."""

    def __init__(self, lender, name):
        self.lender, self.name, self.its, self.guest = lender, name, Cgroup(name), None
        lender.demand(f"add {name} overhead={BESIDE} limit={self.its.term}")
        self.come()

    def come(self):
        """Has a guest come, in place of one that has gone."""
        self.guest = Charged(self.lender, self.name, self.its)
        self.lender.become(self.name, ready=1, answers=1, lent=ALL, limit=ALL + self.beside())

    def beside(self):
        """Returns the pages beside its loan."""
        return self.lender.guests()[self.name]["overhead"]

    def follows(self, pages):
        """Waits until this number of pages is lent to it, and its limit is that and what is
        beside."""
        self.lender.become(self.name, lent=pages, limit=pages + self.beside(), waits="nothing")
        assert self.its.pages() == pages + self.beside()

    def gives(self, count):
        """Gives its first pages, for which it is asked, and its driver has read that: they are lent
        to it no longer."""
        self.lender.demand(f"{self.name} target {count}")
        assert self.guest.ask(f"give 0 {count}") == "done"
        self.follows(ALL - count)

    def kills(self):
        """Returns how many processes the kernel has killed in its cgroup."""
        with open(f"{self.its.path}/memory.events", encoding="ascii") as its:
            return dict(it.split() for it in its)["oom_kill"]

    def is_well(self):
        """Demands that it is there, with its bytes, and nothing was killed."""
        assert (self.guest.process.poll(), self.kills()) == (None, "0")
        assert self.guest.ask(f"turn 0 {GIVEN // 4}") == "right"

    def end(self):
        """Goes, with its cgroup."""
        self.guest.leave()
        self.its.end()


@pytest.fixture
def seats(lend):
    """A lender with two guests, each in a cgroup."""
    lender, begun = lend(BUDGET, *STRICT), []
    try:
        for name in "ab":
            begun.append(Seat(lender, name))
        yield (lender, *begun)
    finally:
        for it in begun:
            it.end()


def test_a_limit_follows_pages_that_come_and_go(seats):
    """What was granted may be written at once: the limit allows it already."""
    lender, a, b = seats
    for count in (GIVEN, GIVEN - 1, GIVEN // 2 + 1, 1, GIVEN):
        a.gives(count)
        assert a.its.held() <= a.its.pages()
        assert [a.guest.ask(f"{it} 0 {count}") for it in ("take", "write", "check")] == [
            "done",
            "done",
            "right",
        ]
        a.follows(ALL)
    assert lent(lender) == 2 * ALL
    a.is_well(), b.is_well()


def test_a_target_alone_lowers_no_limit(seats):
    """A guest that is asked for pages has them until it gives them, and its limit allows them."""
    lender, a, b = seats
    lender.demand(f"a target {GIVEN}")
    eventually(lambda: lender.guests()["a"]["target"] == GIVEN)
    time.sleep(2)
    assert (a.kills(), a.its.pages()) == ("0", ALL + a.beside())
    assert a.guest.ask(f"write 0 {GIVEN}") == "done"
    assert a.guest.ask(f"give 0 {GIVEN}") == "done"
    a.follows(ALL - GIVEN)
    lender.demand("a target 0")
    a.is_well(), b.is_well()


def test_nothing_is_granted_before_the_limit_is_raised(seats):
    """Its writer is held up: the guest has nothing until that continues, and nobody else waits."""
    lender, a, b = seats
    a.gives(GIVEN)
    writer = writer_of(lender, "a")
    stop(writer)
    a.guest.begin("take 0 256")
    lender.become("a", lent=ALL - GIVEN + 256)
    b.is_well()
    assert (a.guest.has_answered(), a.its.pages()) == (False, ALL - GIVEN + a.beside())
    assert (waits_of(lender, "a"), lender.guests()["a"]["ballooned"]) == ("deflate", GIVEN)
    go_on(writer)
    assert a.guest.answer() == "done"
    a.follows(ALL - GIVEN + 256)
    assert [a.guest.ask(f"{it} 0 256") for it in ("write", "check")] == ["done", "right"]
    assert a.guest.ask(f"take 256 {GIVEN - 256}") == "done"
    a.is_well()


def test_who_takes_pages_unasked_hits_its_own_limit(seats):
    """It writes into pages that it gave, past its driver: it is killed, its end is named, and its
    limit stays for who comes next."""
    lender, a, b = seats
    for it in (a, b):
        it.gives(GIVEN)
    most = a.its.pages()
    a.guest.begin(f"write 0 {GIVEN}")
    assert a.guest.process.wait(PATIENCE) == -9
    assert (a.kills(), a.its.pages()) == ("1", most)
    lender.become("a", here=0, lent=0)
    assert "gone a" in lender.said()
    assert b.guest.ask(f"take 0 {GIVEN}") == "done"
    b.follows(ALL)
    b.is_well()
    a.guest.leave()
    a.come()
    assert a.guest.ask(f"turn 0 {GIVEN}") == "right"
    assert lent(lender) == 2 * ALL


def test_an_overhead_below_what_is_in_use_costs_its_own_process(seats):
    """The kernel makes room in this cgroup for the limit that was written."""
    lender, a, b = seats
    lender.demand("terms a overhead=0")
    assert a.guest.process.wait(PATIENCE) == -9
    lender.become("a", here=0, lent=0)
    assert (a.its.pages(), "gone a" in lender.said()) == (ALL, True)
    b.is_well()


def test_a_limit_that_is_not_there_is_named_and_found_again(seats):
    """The cgroup above takes the limits away, and gives them back: the guest waits meanwhile, and
    nobody else does."""
    lender, a, b = seats
    a.gives(GIVEN)
    a.its.has_limits_below(a.its.above, "-")
    a.guest.begin("take 0 256")
    eventually(lambda: lender.guests()["a"]["limit_failures"] >= 2)
    wanted = (ALL - GIVEN + 256 + a.beside()) * 4
    assert (
        f"a: its limit {a.its.term} can't be set to {wanted} KiB: No such file or directory"
        in lender.said()
    )
    assert b.guest.ask("write 0 256") == "done"
    assert (a.guest.has_answered(), waits_of(lender, "a")) == (False, "deflate")
    a.its.has_limits_below(a.its.above)
    assert a.guest.answer() == "done"
    a.follows(ALL - GIVEN + 256)
    a.is_well()
