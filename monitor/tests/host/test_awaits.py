"""A guest's process that waits for room: with a deflate in its hands that is granted meanwhile, as
it is to end, and as it is admitted."""

import os
import select
import signal
import struct

import pytest
from played import ORDER_ADMIT, ORDER_TARGET, WAIT_RESET, WAIT_ROOM
from tenants import FREE, PAGES, PAGES_OF_ALL, eventually, process_of, read_target
from test_between_looks import report_that
from test_channels import channel
from test_reports import MAY_START_SMALL, order, reported
from test_strict import STRICT, Later
from vhost_client import ADD_MEM_REG, DEFLATE, INFLATE, OFFERED, PAGES_OF_REGION, Client
from waiting import PATIENCE

# Pages of the first region that its driver gives, after its rings; and how many it takes back.
GIVEN, TAKEN = [*range(PAGES_OF_ALL + 20, PAGES_OF_ALL + 60)], 10

# Seconds after which nothing comes of what was said before.
QUIET = 0.5


def begin(client):
    """Has a driver ready over the first region alone."""
    client.negotiate(protocol=OFFERED)
    client.accepted(ADD_MEM_REG, client.region_body(0), client.files[:1])
    for number in range(4):
        client.place(number), client.enable(number)


def test_a_client_that_cannot_be_told_is_not_served_on_while_it_waits(lend, come):
    lender = lend(1, "--floor", "0", "--period", "100", "--step", "0", "--strict")
    other, client = come(lender, "b", {FREE: 100}), Client(lender.add("c"), lambda: "")
    begin(client)
    client.post_pages(INFLATE, GIVEN)
    lender.reclaim("c", client, len(GIVEN))
    lender.set_budget(128 + 64 - len(GIVEN))
    client.post_pages(DEFLATE, GIVEN[:TAKEN])
    lender.become("c", waits="deflate")
    client.send(ADD_MEM_REG, client.region_body(1), client.files[1:], flags=1)
    lender.become("c", waits="room")
    client.own.shutdown(2)
    other.give(range(PAGES, PAGES + TAKEN))
    eventually(
        lambda: "refused c: the client can't be told of a used buffer" in lender.said(), lender.said
    )
    lender.become("c", here=0, lent=0)
    client.leave()


def words_of(client, limit):
    """Returns what a client is told until nothing comes for this time."""
    found = []
    while select.select([client.own], [], [], limit)[0]:
        found.append(client.told())
    return found


def test_memory_that_is_added_changes_no_configuration(lend):
    """Its target is as before, and its driver is told of no other."""
    lender = lend(1, *STRICT)
    client = Client(lender.add("a"))
    begin(client)
    lender.become("a", pages=PAGES_OF_REGION, ready=1)
    words_of(client, QUIET)
    client.accepted(ADD_MEM_REG, client.region_body(1), client.files[1:])
    assert words_of(client, 0) == []
    lender.become("a", pages=2 * PAGES_OF_REGION)
    client.leave()


def test_memory_that_is_added_is_no_start(lend):
    """Its driver is told of no target, and has read the one that it has, though the lender says how
    many of its pages are in its balloon."""
    lender, given = lend(1, *STRICT), len(GIVEN)
    client = Client(lender.add("a"))
    begin(client)
    client.post_pages(INFLATE, GIVEN)
    lender.reclaim("a", client, given)
    lender.kill()
    with channel() as it:
        it.connect(f"{lender.folder}/.channels/a")
        words_of(client, QUIET)
        adds = Later(lambda: client.accepted(ADD_MEM_REG, client.region_body(1), client.files[1:]))
        report, _ = report_that(it, lambda its: its.waits == WAIT_ROOM)
        order(it, ORDER_ADMIT, wait=report.wait, ballooned=given, target=given)
        adds.ends()
        assert words_of(client, 0) == []
        its = reported(it)
        assert (its.pages, its.ballooned, its.target) == (2 * PAGES_OF_REGION, given, given)
        assert (its.obeyed, its.holds) == (given + 1, MAY_START_SMALL)
    client.leave()
    lend(1, *STRICT, folder=lender.folder).become("a", here=0)


@pytest.fixture
def waiting(lend, come):
    """Returns a lender, a client `a` that waits for room, and its message that does."""
    lender = lend(1, *STRICT)
    come(lender, "b", {FREE: 0})
    lender.set_budget(2 * 128 - 1)
    client = Client(lender.add("a"))
    client.negotiate()
    comes = Later(client.hand_over_memory)
    lender.become("a", waits="room")
    return lender, client, comes


def test_a_process_that_waits_ends_by_a_signal(waiting):
    lender, client, comes = waiting
    os.kill(process_of(lender, "a"), signal.SIGTERM)
    lender.become("a", here=0)
    comes.join(PATIENCE)
    client.leave()


@pytest.fixture
def begins(lend, waiting):
    """Returns a client whose process is admitted without some pages, and the channel of the lender
    that has done so, which says nothing by itself."""
    lender, client, comes = waiting
    lender.kill()
    with channel() as it:
        it.connect(f"{lender.folder}/.channels/a")

        def admit(without):
            report, _ = report_that(it, lambda its: its.waits == WAIT_ROOM)
            order(it, ORDER_ADMIT, wait=report.wait, ballooned=without, target=without)
            comes.ends()
            return client, it

        yield admit
    client.leave()
    lend(1, *STRICT, folder=lender.folder).become("a", here=0)


@pytest.mark.parametrize("without", (1, 100))
def test_who_is_to_start_without_some_pages_finds_its_target_as_it_begins(begins, without):
    """Its driver may read that before the lender's next order has come."""
    client, _ = begins(without)
    assert struct.unpack_from("<I", read_target(client), 12) == (without,)


def test_who_is_to_have_more_than_it_started_with_asks_for_it_unasked(begins):
    _, it = begins(100)
    report_that(it, lambda its: its.waits == 0 and its.ballooned == 100)
    order(it, ORDER_TARGET, target=50)
    report_that(it, lambda its: its.held_pages == 50)


def give(client):
    """Has a driver ready, and put pages into its balloon."""
    for number in range(4):
        client.place(number), client.enable(number)
    client.post_pages(INFLATE, GIVEN)


def restart(client, it, without):
    """Has another driver begin, which is admitted without these pages; returns the report by which
    its process has waited for that."""
    for number in range(4):
        client.enable(number, 0)
    for number in range(4):
        client.place(number)
    restarts = Later(lambda: [client.enable(number) for number in range(4)])
    report, _ = report_that(it, lambda its: its.waits == WAIT_RESET)
    order(it, ORDER_ADMIT, wait=report.wait, ballooned=without, target=without)
    restarts.ends()
    return report


def test_who_restarts_asks_no_longer_for_what_it_asked_for_before(begins):
    """It was to have 50 in its balloon of the 100 that it started without. It waits for those that
    its driver has put there."""
    client, it = begins(100)
    give(client)
    order(it, ORDER_TARGET, target=50)
    report_that(it, lambda its: its.held_pages == 50)
    assert restart(client, it, 100).wanted == len(GIVEN)
    assert (its := reported(it)).held_pages == 0 and its.ballooned == 100


@pytest.mark.parametrize("without", (0, 1, 100))
def test_a_driver_that_starts_without_some_pages_has_read_no_target(begins, without):
    """One that restarts with all of them obeys the one that was read before."""
    client, it = begins(100)
    give(client), read_target(client)
    report_that(it, lambda its: its.obeyed > 0)
    restart(client, it, without)
    assert (reported(it).obeyed > 0) == (without == 0)
