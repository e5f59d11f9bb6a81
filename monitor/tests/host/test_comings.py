"""Clients of one seat that come and go: each costs its seat time, and so does memory for which
others may have to give; what a seat owes is bounded."""

import contextlib
import select
import time

import pytest
from bigvasta.connection import Connection
from played import TELL_REFUSED, TELL_REMARK, VERSION, WAIT_ROOM, Listens, Message, Played
from tenants import AVAILABLE, FREE, eventually, go_on, status_of, stop
from test_later_lender import QUICK
from test_pressed import KILLS
from test_strict import GIVEN, STRICT, Later
from test_turns import connect
from vhost_client import ADD_MEM_REG, BY_MESSAGES, OFFERED, PAGE, REM_MEM_REG, Client
from waiting import PATIENCE

# Seconds: what a client costs, what memory of the budget's size does, and what a seat may owe.
OF_CLIENT, OF_BUDGET, MOST_OWED = 2, 30, 60
COSTS = ("--cost", "2000")

# Pages of a guest, and how often it reports that it waits for them.
ALL, REPORTS = 128, 8

OFTEN = "a: its clients come too often: "


def clients_of(lender, name):
    """Returns how many clients a seat has had."""
    (its,) = (it for it in lender.status()["guests"] if it["name"] == name)
    return its["counters"]["clients"]


def come_and_go(lender, act):
    """Has clients come and go until the lender says that they come too often, and ten more; returns
    how many it took, and for how long."""
    begin = time.monotonic()
    eventually(lambda: (act(), any(it.startswith(OFTEN) for it in lender.said()))[1])
    for _ in range(10):
        act()
    return clients_of(lender, "a"), time.monotonic() - begin


def most_clients(cost, seconds):
    """Returns how many clients a seat may have in these seconds, each at this cost: it owes less
    than it may as the last one comes."""
    return (MOST_OWED + seconds) / cost + 1


def test_a_seat_whose_clients_come_and_go_is_slowed(lend, come):
    lender = lend(1, *QUICK, *COSTS)
    b = come(lender, "b", {FREE: 100})
    lender.demand("add a")

    def act():
        with contextlib.suppress(BlockingIOError):
            connect(lender, "a", blocks=False).close()
        time.sleep(0.02)

    count, seconds = come_and_go(lender, act)
    assert MOST_OWED / OF_CLIENT <= count <= most_clients(OF_CLIENT, seconds)
    # Another seat isn't.
    b.leave(), come(lender, "b", {FREE: 100}).leave()


def test_memory_that_comes_and_goes_is_slowed_by_its_part_of_the_budget(lend):
    lender = lend(1, *STRICT, *COSTS)
    lender.demand("add a")

    def act():
        if any(it.startswith(OFTEN) for it in lender.said()):
            return
        it = Client(f"{lender.folder}/a")
        it.start(), it.leave()
        lender.become("a", here=0)

    count, seconds = come_and_go(lender, act)
    assert count <= most_clients(OF_CLIENT + OF_BUDGET / 2, seconds)


@pytest.mark.parametrize("waits", (1, REPORTS), ids=("one-wait", "a-wait-each"))
def test_memory_is_paid_for_once_for_each_wait(lend, waits):
    """However often a process reports that it waits still: half of the budget costs 15 s."""
    lender = lend(1, *STRICT, *COSTS)
    b = Played(lender, "b", pages=2 * ALL)
    a = Played(lender, "a")
    for number in range(REPORTS):
        a.report(waits=WAIT_ROOM, wait=1 + number % waits, wanted=ALL)
    lender.become("a", waits="room", pages=0)
    a.leave()
    lender.become("a", here=0)
    assert any(it.startswith(OFTEN) for it in lender.said()) == (waits > 1)
    b.leave()


def gives_and_takes_unasked(lender, guest):
    """It takes ten of the pages that it was asked for, and its own work waits for memory."""
    guest.take(GIVEN[:10])
    lender.become("a", taken=10, pressed=1)


def gives_and_waits(lender, guest):
    """It waits for ten of the pages that it has given."""
    guest.take(GIVEN[:10])
    lender.become("a", waits="deflate", pressed=1)


@pytest.mark.parametrize(
    "options, act",
    ((QUICK, gives_and_takes_unasked), (STRICT, gives_and_waits)),
    ids=("as-it-likes", "strict"),
)
def test_of_a_client_that_has_gone_nothing_is_known(lend, come, options, act):
    """Its seat shows what one does that had none, but that there was one."""
    lender = lend(1, *options)
    a = come(lender, "a", {FREE: 60, AVAILABLE: 100, KILLS: 7})
    lender.add("b"), lender.set_budget(ALL - 50)
    lender.become("a", target=50)
    a.give(GIVEN[:50]), lender.become("a", ballooned=50, lent=ALL - 50)
    a.figures |= {KILLS: 8}
    lender.become("a", pressed=1)
    act(lender, a)
    a.leave()
    eventually(lambda: lender.status()["guests"][0]["state"] == "absent")
    its, others = lender.status()["guests"]
    assert (its["counters"].pop("clients"), others["counters"].pop("clients")) == (1, 0)
    assert {it for it in others if its[it] != others[it]} == {"name", "socket"}, (its, others)


def test_messages_that_are_not_read_count_for_their_client_alone(lend):
    """Nobody reads what the lender says to the process of this one."""
    lender = lend(1, *STRICT)
    listens = Listens(lender.folder, "a")
    lender.demand("add a strict=1")
    channel = listens.accept()

    def lost():
        lender.guests()
        return lender.status()["guests"][0]["counters"]["lost"]

    eventually(lambda: lost() > 1)
    channel.close(), listens.end()
    lender.become("a", here=0)
    assert lost() == 0


def test_the_last_words_of_a_process_that_reads_no_longer_are_heard(lend):
    """It has closed its channel with orders unread, before the lender reads what it said."""
    lender = lend(1, *STRICT)
    listens = Listens(lender.folder, "a")
    lender.demand("add a strict=1")
    channel = listens.accept()
    select.select([channel], [], [], PATIENCE)
    stop(lender.process.pid)
    eventually(lambda: status_of(lender.process.pid)["State"].startswith("T"))
    for kind, words in ((TELL_REMARK, b"a remark"), (TELL_REFUSED, b"a fault")):
        channel.send(bytes(Message(version=VERSION, kind=kind, words=words)))
    channel.close(), listens.end()
    go_on(lender.process.pid)
    lender.become("a", here=0)
    said = lender.said()
    assert "a: a remark" in said and "refused a: a fault" in said, said


# Pages of a slot, and seconds in which slots come and go; nobody is looked at by itself.
SLOT, LONG = 64, 6
SELDOM = ("--period", "60000")


def test_a_slot_that_comes_and_goes_is_slowed_like_a_client(lend):
    """Each is half of the budget, for which others would have to give."""
    lender = lend(1, *STRICT, *COSTS)
    lender.set_budget(2 * SLOT)
    client = Client(lender.add("a"))
    client.begin(OFFERED & ~BY_MESSAGES), client.negotiate()
    client.accepted(ADD_MEM_REG, client.region_body(0), client.files[:1])
    begin, count = time.monotonic(), 0
    while (seconds := time.monotonic() - begin) < LONG:
        adds = Later(lambda: client.accepted(ADD_MEM_REG, client.region_body(1), client.files[1:]))
        if adds.waits(LONG - seconds):
            break
        adds.ends()
        lender.become("a", pages=2 * SLOT)
        client.accepted(REM_MEM_REG, client.region_body(1))
        lender.become("a", pages=SLOT)
        count += 1
    seconds = time.monotonic() - begin
    assert 0 < count <= most_clients(OF_BUDGET / 2, seconds)
    client.leave()


def test_a_slot_that_is_asked_for_as_the_one_before_comes_is_slowed_like_any_other(lend):
    """What came before it cost more than is owed at most; it has no place in line, though it is the
    next thing that its process says, and though there is room."""
    lender = lend(1, *STRICT, *COSTS, *SELDOM)

    def pages_of(field):
        with Connection(f"{lender.folder}/.control") as control:
            return control.ask("guest", name="a")["guest"][field] // PAGE

    lender.set_budget(2 * SLOT)
    b, a = Played(lender, "b", pages=SLOT), Played(lender, "a", pages=SLOT)
    for wait in range(1, 2 * REPORTS):
        a.report(waits=WAIT_ROOM, wait=wait, wanted=2 * SLOT)
    lender.become("a", waits="room", lent=SLOT)
    lender.set_budget(4 * SLOT)
    # No line is said to it, at which it would be asked for another report.
    eventually(lambda: pages_of("loan") == 2 * SLOT)
    a.report(pages=2 * SLOT, wait=2 * REPORTS, wanted=3 * SLOT, actual=7)
    eventually(lambda: pages_of("actual") == 7)
    assert (pages_of("memory"), pages_of("loan")) == (2 * SLOT, 2 * SLOT)
    for it in a, b:
        it.leave()
