"""What a host sees as it looks at its guests, what they hold and who takes pages back; and what a
process does that nobody looks at."""

import os
import time

import pytest
from played import WAIT_ROOM, Listens, Played
from tenants import FREE, PAGES, eventually, process_of
from test_later_lender import QUICK
from test_strict import STRICT
from vhost_client import PAGE

# Pages of a guest, KiB of a page, and the seconds for which nobody is asked who took pages back.
ALL, KIB, PAUSE = 128, 4, 2


def test_what_is_held_at_most_and_above_the_budget(lend, come):
    lender = lend(1, *QUICK)
    guest = come(lender, "a", {FREE: 0})
    guest.fill()
    looks = lambda: lender.counters()["looks"]

    def look():
        before = looks()
        eventually(lambda: looks() > before + 1)

    def counted():
        its, status = lender.counters(), lender.status()["host"]
        return its["peak_kib"], its["above"] > 0, status["measures"]["above"] > 0

    lender.become("a", held_kib=ALL * KIB)
    lender.set_budget(ALL), look()
    assert counted() == (ALL * KIB, False, False)
    lender.set_budget(ALL - 1), look()
    assert counted() == (ALL * KIB, True, True)
    status = lender.status()["host"]
    # Each look counts as the seconds of a period: a tenth of one.
    assert status["measures"]["above"] == pytest.approx(status["counters"]["above"] / 10)
    guest.leave()
    lender.become("a", held_kib=0), look()
    before, passed = (lender.counters()[it] for it in ("above", "peak_kib"))
    look()
    assert (lender.counters()["above"], passed) == (before, ALL * KIB)


def test_who_waits_for_room_has_taken_nothing_whatever_it_holds(lend):
    """A client's memory may be all there before it has room."""
    lender = lend(1, *STRICT)
    lender.set_budget(ALL)
    b = Played(lender, "b", pages=ALL)
    listens = Listens(lender.folder, "a")
    lender.demand("add a strict=1 overhead=0")
    its = {"ready": 0, "waits": WAIT_ROOM, "wait": 1, "wanted": ALL, "held_kib": KIB * ALL}
    a = Played(lender, "a", listens=listens, **its)
    lender.become("a", waits="room", held_kib=KIB * ALL)
    looks = lender.counters()["looks"]
    eventually(lambda: lender.counters()["looks"] > looks + 3)
    its = lender.guests()["a"]
    assert (its["cooperates"], its["lent"], its["asked"]) == (1, 0, 0)
    assert not [it for it in lender.said() if "unasked" in it]
    for it in a, b:
        it.leave()


def test_who_has_taken_pages_back_is_asked_for_none_for_a_while(lend, come):
    lender = lend(1, *QUICK)
    guest = come(lender, "a", {FREE: 100})
    lender.set_budget(ALL - 50)
    lender.become("a", asked=50)
    guest.give([*range(PAGES, PAGES + 50)])
    lender.become("a", ballooned=50)
    begin = time.monotonic()
    guest.take([*range(PAGES, PAGES + 50)])
    lender.become("a", ballooned=0, taken=50, spare=0)
    lender.become("a", asked=50)
    assert time.monotonic() - begin >= PAUSE


def test_what_a_guest_takes_unasked_and_what_an_earlier_lender_lent_is_not_granted(lend, come):
    """It was granted all its pages as it came, and gave 50 of them."""
    lender = lend(1, *STRICT)
    granted = lambda it: it.status()["guests"][0]["counters"]["granted"] // PAGE
    guest = come(lender, "a", {FREE: 100}, "overhead=0")
    lender.set_budget(ALL - 50)
    lender.become("a", asked=50)
    guest.give([*range(PAGES, PAGES + 50)])
    lender.become("a", ballooned=50, lent=ALL - 50)
    assert granted(lender) == ALL
    guest.fill()
    lender.become("a", cooperates=0, lent=ALL)
    assert granted(lender) == ALL
    lender.kill()
    later = lend(1, *STRICT, folder=lender.folder)
    later.become("a", ready=1, lent=ALL)
    assert granted(later) == 0


def test_a_process_that_has_not_received_a_target_is_sent_it_at_each_look(lend):
    lender = lend(1, *STRICT)
    guest = Played(lender, "a", pages=ALL, ballooned=50)
    lender.set_budget(ALL - 50)
    eventually(lambda: guest.targets.count(50) >= 5, lambda: guest.targets)
    guest.report(target=50)
    lender.become("a", target=50)
    before, looks = len(guest.targets), lender.counters()["looks"]
    eventually(lambda: lender.counters()["looks"] > looks + 3)
    assert len(guest.targets) - before <= 1
    guest.leave()


def test_a_driver_that_stays_off_its_target_is_told_it_at_each_look(lend, come):
    lender = lend(1, *QUICK)
    guest = come(lender, "a", {FREE: 100})
    told = lambda: lender.status()["guests"][0]["counters"]["told"]
    lender.set_budget(ALL - 50)
    lender.become("a", asked=50, target=50)
    before = told()
    eventually(lambda: told() >= before + 5)
    guest.give([*range(PAGES, PAGES + 50)])
    lender.become("a", ballooned=50)
    before, looks = told(), lender.counters()["looks"]
    eventually(lambda: lender.counters()["looks"] > looks + 5)
    assert told() <= before + 1


def test_a_process_whose_lender_has_gone_takes_no_processor(lend, come):
    lender = lend(1, *QUICK)
    come(lender, "a", {FREE: 100})
    process = process_of(lender, "a")
    lender.kill()

    def ticks():
        with open(f"/proc/{process}/stat", encoding="ascii") as its:
            return sum(map(int, its.read().rsplit(")", 1)[1].split()[11:13]))

    time.sleep(0.5)
    before = ticks()
    time.sleep(1)
    assert ticks() - before < os.sysconf("SC_CLK_TCK") / 20
    lend(1, *QUICK, folder=lender.folder)
