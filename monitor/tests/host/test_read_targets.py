"""Targets that change before a guest's driver obeys them, on a strict host. A test plays the
guests' processes, which say which target a driver has read. Each of these guests is silent: it can
spare what is in its balloon, and no more."""

import os
import signal
import time

import pytest
from bigvasta.connection import Connection
from played import WAIT_ROOM, Played
from tenants import FREE, process_of, read_target
from test_strict import GIVEN, STRICT, lent
from vhost_client import PAGE

# Frames of the host, which the first guest has at the beginning; pages of a request of Linux's; and
# those for which the second one waits.
ALL, OF_REQUEST, WANTED = 4096, 256, 3000

# Seconds for which a driver that reads no target may obey an earlier one, and in which one that
# reads targets has read the last; and more than these.
LINGERS, LATER = 3, 3.5


@pytest.fixture
def play(lend):
    """Plays the process of a guest that has all frames, and has put none into its balloon, or
    these; another one waits for room."""
    played = []
    lender = lend(ALL * PAGE >> 20, *STRICT)

    def begin(**its):
        played.append(Played(lender, "a", pages=ALL, **its))
        played.append(Played(lender, "b", ready=0, waits=WAIT_ROOM, wait=1, wanted=WANTED))
        return played[0]

    yield begin
    for it in played:
        it.leave()


@pytest.mark.parametrize("reads", (True, False), ids=("reads", "doesn't"))
def test_a_driver_takes_back_what_it_gave_before_it_read_a_target(play, reads):
    """A driver at full speed inflates ten times before it reads that it is to give less. As it
    gives, it can spare more: so its target rises again, and it obeys one between. It waits for none
    of the pages that it takes back by that. A driver that reads no target obeys what its process
    has heard.
    """
    a = play(target=ALL, hears=reads, **({"obeyed": ALL + 1} if reads else {}))
    a.lender.become("a", asked=0)
    for number in range(1, 11):
        a.report(ballooned=number * OF_REQUEST)
        a.lender.become("a", asked=number * OF_REQUEST, lent=ALL)
    a.report(**({"obeyed": OF_REQUEST + 1} if reads else {"target": OF_REQUEST}))
    for _ in range(9):
        a.deflates(OF_REQUEST)
        a.deflated()
    a.lender.become("a", asked=OF_REQUEST, ballooned=OF_REQUEST, waits="nothing")
    # It has read its last target: what it leaves in its balloon isn't lent to it any longer.
    a.lender.become("a", lent=ALL - OF_REQUEST)
    assert lent(a.lender) == ALL - OF_REQUEST and a.lender.guests()["b"]["waits"] == "room"


def test_a_driver_that_reads_no_target_has_a_moment(play):
    """Its target rises while it takes pages by the one before. Once its process has heard that, one
    request of Linux's may be on its way."""
    a = play(ballooned=3 * OF_REQUEST)
    a.lender.become("a", asked=3 * OF_REQUEST, lent=ALL)
    time.sleep(LATER)
    a.deflates(OF_REQUEST)
    a.deflated()
    a.lender.become("a", asked=2 * OF_REQUEST, lent=ALL)
    a.report(target=2 * OF_REQUEST)
    a.deflates(OF_REQUEST)
    a.deflated()
    a.lender.become("a", asked=OF_REQUEST, lent=ALL)
    begin = time.monotonic()
    a.report(target=OF_REQUEST)
    a.lender.become("a", lent=ALL - OF_REQUEST)
    assert time.monotonic() - begin >= LINGERS - 0.5
    with Connection(f"{a.lender.folder}/.control") as it:
        it.ask("budget", bytes=(ALL - OF_REQUEST) * PAGE)
    a.deflates(OF_REQUEST)
    a.lender.become("a", waits="deflate")
    time.sleep(0.5)
    assert not a.is_granted()


def test_a_driver_has_a_moment_for_each_target(play):
    """Also where its process has heard that as it reports next."""
    a = play(hears=True)
    for given in OF_REQUEST, 2 * OF_REQUEST:
        begin = time.monotonic()
        a.report(ballooned=given)
        a.lender.become("a", asked=given, lent=ALL - given)
        assert time.monotonic() - begin >= LINGERS - 0.5


@pytest.mark.parametrize("reads", (True, False), ids=("reads", "doesn't"))
def test_a_process_tells_what_its_driver_has_read(lend, come, reads):
    """What was lent ahead stays lent until the driver of a guest that reads targets has read the
    one that rose, or hasn't for a while."""
    lender = lend(1, *STRICT)
    a, _ = (come(lender, it, {FREE: 100}, reads=False) for it in "ab")
    read = lambda: read_target(a.client)
    lender.demand("budget 0")
    lender.become("a", asked=100)
    a.give(GIVEN[:100])
    lender.become("a", ballooned=100, lent=28)
    read(), lender.demand("budget 1")
    lender.become("a", asked=0, lent=128)
    time.sleep(LATER + LINGERS)
    begin = time.monotonic()
    lender.demand("budget 0")
    lender.become("a", asked=128)
    if reads:
        read()
    lender.become("a", lent=28)
    seconds = time.monotonic() - begin
    if seconds >= LINGERS - 0.5 if reads else seconds >= 2 * LINGERS - 0.5:
        pytest.skip("the machine is too busy")
    assert reads or seconds >= LINGERS - 0.5


def test_the_next_process_tells_what_was_read_before_for_as_long(lend, come):
    lender = lend(1, *STRICT)
    a, _ = (come(lender, it, {FREE: 100}, reads=False) for it in "ab")
    a.give(GIVEN[:100])
    lender.become("a", asked=0, ballooned=100, lent=128)
    read_target(a.client)
    lender.demand("budget 0")
    lender.become("a", asked=128)
    os.kill(process_of(lender, "a"), signal.SIGKILL)
    begin = time.monotonic()
    lender.become("a", target=128, lent=28)
    assert time.monotonic() - begin >= LINGERS - 0.5


def test_what_a_driver_takes_by_the_target_that_it_has_read_isnt_taken_by_itself(lend, come):
    """Its target rises while it deflates toward the one before: of these pages those below both
    count."""
    lender = lend(1, *STRICT)
    a = come(lender, "a", {FREE: 100}, reads=False)
    a.give(GIVEN[:100])
    lender.become("a", ballooned=100)
    read_target(a.client)
    begin = time.monotonic()
    lender.demand("a target 80")
    lender.become("a", target=80)
    a.take(GIVEN[:30])
    lender.become("a", ballooned=70)
    if time.monotonic() - begin >= LINGERS:
        pytest.skip("the machine is too busy")
    assert lender.guests()["a"]["taken"] == 0
    read_target(a.client)
    a.take(GIVEN[30:40])
    lender.become("a", ballooned=60, taken=10)


def test_a_driver_that_has_not_read_its_target_obeys_that_after_a_while(lend, come):
    """Then its target rises: what it takes below the one before, it takes by itself, though it has
    read another one earlier."""
    lender = lend(1, *STRICT)
    a = come(lender, "a", {FREE: 100}, reads=False)
    a.give(GIVEN[:100])
    lender.become("a", ballooned=100)
    read_target(a.client)
    lender.demand("a target 80")
    lender.become("a", target=80)
    time.sleep(LATER)
    begin = time.monotonic()
    lender.demand("a target 90")
    lender.become("a", target=90)
    a.take(GIVEN[:30])
    lender.become("a", ballooned=70)
    if time.monotonic() - begin >= LINGERS:
        pytest.skip("the machine is too busy")
    lender.become("a", taken=10)
