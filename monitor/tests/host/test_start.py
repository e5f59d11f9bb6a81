"""A guest that starts with less than its memory, by `start=` or by `most=` beside a limit: it is
lent that much as it comes, and the rest counts in its balloon until its driver has put it there.
Guests have 128 pages."""

import os
import signal
import time

import pytest
from bigvasta.connection import Connection
from tenants import FREE, Guest, eventually, process_of, read_target
from test_strict import GIVEN, STRICT, Later, lent, used, waits_of
from vhost_client import DEFLATE, PAGE, Client

# Pages of a guest, those that it starts with, those that it starts without, and those that it may
# hold beside its loan: a client holds all its pages from the start.
ALL, START, OVERHEAD = 128, 40, 128
WITHOUT = ALL - START

pytestmark = pytest.mark.skipif(os.geteuid() != 0, reason="mounts and cgroups are for root")


@pytest.fixture
def small(lend, limits):
    """Has a guest come by terms in pages; it may start with less, and goes at the end."""
    lender, its, guests = lend(1, *STRICT), limits("a"), []

    def begin(budget, kind=Guest, **terms):
        lender.set_budget(budget)
        with Connection(f"{lender.folder}/.control") as control:
            terms = {name: pages * PAGE for name, pages in terms.items()}
            control.ask("add", name="a", overhead=OVERHEAD * PAGE, limit=its.term, **terms)
        if kind is Guest:
            guests.append(Guest(lender, "a", {FREE: 100}))
        else:
            guests.append(Client(f"{lender.folder}/a", lambda: ""))
            guests[-1].negotiate()
        return guests[-1]

    yield lender, its, begin
    for it in guests:
        it.leave()


def test_it_waits_for_its_start_alone(small, come):
    lender, its, begin = small
    b = come(lender, "b", {FREE: 0})
    client = begin(ALL + START - 1, Client, start=START)
    comes = Later(client.hand_over_memory)
    assert comes.waits() and waits_of(lender, "a") == "room"
    lender.set_budget(ALL + START)
    comes.ends()
    assert its.pages() == OVERHEAD + START
    lender.become(
        "a", pages=ALL, lent=START, limit=OVERHEAD + START, ballooned=WITHOUT, asked=WITHOUT
    )
    assert b.is_alive() and lender.counters()["short"] == 0


def test_it_comes_with_its_start_where_another_one_gives(small, come):
    """It is lent no more of that while its driver isn't there."""
    lender, _, begin = small
    b = come(lender, "b", {FREE: 100})
    client = begin(ALL + START - 1, Client, start=START)
    comes = Later(client.hand_over_memory)
    assert comes.waits() and lender.guests()["a"]["target"] < WITHOUT
    b.give(GIVEN[:60])
    comes.ends()
    time.sleep(0.5)
    lender.become("a", pages=ALL, lent=START, ballooned=WITHOUT)


@pytest.mark.parametrize("start", (START, ALL))
def test_all_that_the_host_has_is_its_start(small, start):
    """Less than its memory, or as much."""
    lender, its, begin = small
    begin(start, Client, start=start).hand_over_memory()
    lender.become("a", pages=ALL, lent=start, limit=OVERHEAD + start)


def test_it_is_lent_more_once_its_driver_is_there(small):
    lender, its, begin = small
    guest = begin(START, start=START)
    lender.become("a", ready=1, lent=START, ballooned=WITHOUT, asked=WITHOUT)
    guest.give(GIVEN[:WITHOUT])
    lender.become("a", lent=START, ballooned=WITHOUT)
    lender.set_budget(START + 20)
    lender.become("a", lent=START + 20, asked=WITHOUT - 20)
    guest.take(GIVEN[:20])
    used(guest, DEFLATE, 1)
    lender.become(
        "a", ballooned=WITHOUT - 20, lent=START + 20, limit=OVERHEAD + START + 20, cooperates=1
    )


def test_what_it_need_not_put_there_counts_no_longer(small):
    """Its driver has put 10 pages there as it is lent 78: later it is asked for all, and has its
    pages until it gave them."""
    lender, its, begin = small
    guest = begin(START, start=START)
    lender.become("a", ready=1, asked=WITHOUT)
    guest.give(GIVEN[:10])
    lender.set_budget(START + 38)
    lender.become("a", lent=78, ballooned=50, asked=50, waits="nothing")
    guest.give(GIVEN[10:50])
    lender.become("a", lent=78, ballooned=50, limit=OVERHEAD + 78)
    lender.set_budget(START)
    lender.become("a", asked=WITHOUT)
    read_target(guest.client)
    time.sleep(0.5)
    assert (lender.guests()["a"]["lent"], its.pages()) == (78, OVERHEAD + 78)
    guest.give(GIVEN[50:WITHOUT])
    lender.become("a", lent=START, limit=OVERHEAD + START, ballooned=WITHOUT, cooperates=1)


def test_a_deflate_before_that_leaves_both(small):
    """What its driver takes leaves the balloon, and what it started without stays there."""
    lender, _, begin = small
    guest = begin(START, start=START)
    lender.become("a", ready=1, asked=WITHOUT)
    guest.give(GIVEN[:10])
    guest.take(GIVEN[:5])
    lender.become("a", waits="deflate", ballooned=WITHOUT, lent=START)
    lender.set_budget(START + 5)
    used(guest, DEFLATE, 1)
    lender.become("a", ballooned=WITHOUT - 5, lent=START + 5, waits="nothing", cooperates=1)


def test_another_process_and_another_lender_know_of_it(small, lend):
    lender, its, begin = small
    begin(START, Client, start=START).hand_over_memory()
    lender.become("a", pages=ALL, lent=START, ballooned=WITHOUT)
    before = process_of(lender, "a")
    os.kill(before, signal.SIGKILL)
    eventually(lambda: process_of(lender, "a") not in (0, before))
    lender.kill()
    second = lend(1, *STRICT, folder=lender.folder)
    second.become(
        "a", pages=ALL, ballooned=WITHOUT, lent=START, limit=OVERHEAD + START, cooperates=1
    )
    assert its.pages() == OVERHEAD + START
    (terms,) = (it["terms"] for it in second.status()["guests"])
    assert terms["start"] == START * PAGE


def begins_anew(guest):
    """Has another driver begin, as after a reboot: its first queue may have to wait."""
    guest.ended.set(), guest.join()
    for number in range(4):
        assert guest.client.enable(number, 0) == bytes(8)
    guest.lender.become("a", ready=0)
    for number in range(4):
        guest.client.place(number)
    return Later(lambda: [guest.client.enable(number) for number in range(4)])


def test_it_begins_anew_with_its_start(small):
    """With 100 pages in its balloon it asks for 12 of them."""
    lender, its, begin = small
    guest = begin(ALL - 100, start=ALL - 100)
    lender.become("a", ready=1, asked=100)
    guest.give(GIVEN[:100])
    lender.become("a", ballooned=100, lent=ALL - 100)
    with Connection(f"{lender.folder}/.control") as control:
        control.ask("guest", name="a", start=START * PAGE)
    restarted = begins_anew(guest)
    assert restarted.waits() and waits_of(lender, "a") == "reset"
    lender.set_budget(START)
    restarted.ends()
    lender.become("a", ballooned=WITHOUT, lent=START, waits="nothing", cooperates=1)
    assert its.pages() == OVERHEAD + START


def test_it_begins_anew_at_once_with_what_it_has(small):
    """With no more in its balloon than it starts without it asks for nothing, and is lent no
    more."""
    lender, its, begin = small
    guest = begin(START + 20, start=START)
    lender.become("a", ready=1, asked=WITHOUT - 20)
    guest.give(GIVEN[: WITHOUT - 20])
    lender.become("a", ballooned=WITHOUT - 20, lent=START + 20, limit=OVERHEAD + START + 20)
    begins_anew(guest).ends()
    lender.become("a", ballooned=WITHOUT - 20, lent=START + 20, waits="nothing", cooperates=1)
    assert its.pages() == OVERHEAD + START + 20


def test_its_most_counts_from_the_first_moment(small):
    lender, its, begin = small
    begin(ALL, Client, most=START).hand_over_memory()
    lender.become("a", pages=ALL, lent=START, limit=OVERHEAD + START, ballooned=WITHOUT)
    assert its.pages() == OVERHEAD + START


def test_a_start_above_its_pages_is_refused(small, come):
    lender, _, begin = small
    b = come(lender, "b", {FREE: 0})
    client = begin(2 * ALL, Client, start=ALL + 1)
    with pytest.raises((AssertionError, OSError, TypeError)):
        client.hand_over_memory()
    why = "refused a: its memory has 512K, and it is to start with 516K (start=)"
    eventually(lambda: lender.hear() or why in lender.said(), lender.said)
    lender.become("a", here=0)
    assert b.is_alive() and lent(lender) == ALL and lender.counters()["refused"] == 1
    (its,) = (it for it in lender.status()["guests"] if it["name"] == "a")
    assert its["refused"] == {"for": "start", "bytes": PAGE}


REFUSED = (
    ("start=1", "a start is for a guest that has a limit"),
    ("start=2 most=1 limit={}", "its start is more than its most"),
    ("start=x limit={}", None),
)


@pytest.mark.parametrize("terms, why", REFUSED)
def test_what_is_no_start_is_refused(lend, limits, terms, why):
    lender, its = lend(1, *STRICT), limits("a")
    lender.demand("add a")
    said = lender.ask(f"terms a {terms.format(its.term)}")
    assert said == f"error: {why}" if why else said.startswith("error: a name, and of ")
    assert not lender.ask(f"add b {terms.format(its.term)}").startswith("listening")


def test_its_limit_stays_until_it_has_given_as_much(small):
    lender, its, begin = small
    guest = begin(START, start=START)
    lender.become("a", ready=1, asked=WITHOUT)
    why = "its limit stays until its balloon has what it started without"
    with Connection(f"{lender.folder}/.control") as control:
        control.ask("guest", name="a", start=None)
        assert lender.ask("terms a limit=none") == f"error: {why}"
        guest.give(GIVEN[:WITHOUT])
        eventually(lambda: lender.ask("terms a limit=none") == "ok")
