"""Tests of a Linux guest that migrates between two hosts, each with a lender, whose budgets are
below what their guests have together: neither is above its budget at any look."""


import linux_kit
import pytest
from linux_lent import BUDGET, LentPair
from linux_vmms import Shape
from migrate_demands import HARDLY, KEPT, MORE
from waiting import eventually

# MiB of the guest, and those by which a destination lacks room.
MEMORY, TOO_FEW = 256, 40


@pytest.fixture
def lent(vmm, tmp_path):
    """Returns a guest that runs on a host whose budget it has made room for, and where it may
    migrate to; the sums of a file that it keeps."""
    program = linux_kit.built("plain/vhost_user_host")
    pair = LentPair(vmm, program, tmp_path, Shape(MEMORY, queues=5, queue_size=128))
    pair.source.guest.do(f"fill kept {KEPT}")
    sums = pair.source.guest.do("sums kept")
    pair.source.set_budget(BUDGET)
    pair.source.settle()
    yield pair, sums
    pair.close()


def demand_right(side, sums):
    """Demands that a guest has its file, and no trouble; and that it follows its host's budget to
    more memory, and to less."""
    side.await_status("running")
    for budget in (BUDGET + 40, BUDGET):
        side.set_budget(budget)
        side.settle()
    assert side.guest.do("sums kept") == sums
    assert side.guest.do("trouble") == []
    assert not [it for it in side.said() if "unasked" in it or "refused" in it]


def demand_arrived(pair, sums, before):
    """Demands that a guest has arrived with its balloon: the destination lends and holds no more
    than the source did."""
    held = [it.held_mib() for it in pair.sides]
    assert max(pair.most_held, *held) <= MORE * before, (before, held)
    pair.destination.settle()
    demand_right(pair.destination, sums)


def test_an_idle_guest_of_a_lender(lent):
    """What was lent stays lent where it was until its QEMU has gone."""
    pair, sums = lent
    before, its = pair.source.held_mib(), pair.source.its()
    pair.migrate()
    assert pair.source.its()["lent"] <= its["lent"] and pair.source.its()["here"]
    demand_arrived(pair, sums, before)
    source = pair.source
    source.end_qemu()
    eventually(lambda: source.its()["lent"] == 0)


def begin_slowly(pair):
    """Begins to migrate, and waits until some of its memory was sent."""
    pair.begin(**{"max-bandwidth": HARDLY})
    eventually(lambda: pair.sent_mib() > 1)


def test_lenders_that_are_killed_amid(lent):
    """The source's, in a migration that is cancelled; and the destination's, in one that
    completes."""
    pair, sums = lent
    before = pair.source.held_mib()
    begin_slowly(pair)
    pair.source.renew_lender()
    pair.look()
    pair.source.qmp.do("migrate_cancel")
    pair.end("cancelled")
    demand_right(pair.source, sums)
    before = pair.source.held_mib()
    pair.renew()
    begin_slowly(pair)
    pair.destination.renew_lender()
    pair.look()
    pair.hurry()
    pair.arrive()
    demand_arrived(pair, sums, before)


def test_a_host_without_room(lent):
    """It refuses the guest by name before any memory comes; the guest continues where it was, and
    may migrate to a host that has room."""
    pair, sums = lent
    pair.room = BUDGET - TOO_FEW
    pair.renew()
    pair.begin()
    pair.end("failed")
    assert pair.destination.held_mib() < 1
    assert [it for it in pair.destination.said() if it.startswith("refused guest: no room for")]
    demand_right(pair.source, sums)
    before, pair.room = pair.source.held_mib(), None
    pair.renew()
    pair.migrate()
    demand_arrived(pair, sums, before)
