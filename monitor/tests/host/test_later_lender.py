"""A lender that goes, and the next one, which takes over the guests that there are."""

import os
import signal
import subprocess
import threading
import time

import pytest
from bigvasta.connection import Connection
from tenants import (
    FREE,
    PAGES,
    PAGES_OF_ALL,
    eventually,
    go_on,
    has_ended,
    process_of,
    status_of,
    stop,
)
from vhost_client import DEFLATE, PAGE, Client
from waiting import PATIENCE

QUICK = ("--floor", "0", "--reserve", "0", "--period", "100", "--step", "0")

# Seconds in which the guests of an earlier lender tell what they have, less those that a busy
# machine takes.
TOLD_IN = 4


def leave(lender):
    """A lender says that it goes."""
    lender.process.stdin.write(b"leave\n"), lender.process.stdin.flush()
    assert lender.process.wait(PATIENCE) == 0
    lender.process.stdin.close(), lender.process.stdout.close()


def upgrade(lender):
    """It becomes the program that is there."""
    with Connection(f"{lender.folder}/.control") as control:
        control.ask("upgrade")


WAYS = (leave, lambda lender: lender.kill())


@pytest.mark.parametrize("end", WAYS, ids=("leave", "killed"))
def test_the_next_lender_goes_on_with_the_guests(lend, come, end):
    first = lend(1, *QUICK)
    a = come(first, "a", {FREE: 100}, "priority=2 least=0 most=3")
    come(first, "b", {FREE: 100})
    first.demand("add empty")
    first.demand("budget 0"), first.demand("terms b priority=1")
    eventually(lambda: [it["target"] for it in first.guests().values()] == [100, 100, 0])
    a.give(list(range(PAGES, PAGES + 30)))
    first.become("a", ballooned=30, inflated=30)
    processes = [process_of(first, it) for it in "ab"]
    end(first)
    # Meanwhile the guests are served.
    a.give(list(range(PAGES + 30, PAGES + 40)))
    assert not any(map(has_ended, processes))
    second = lend(1, *QUICK, folder=first.folder)
    second.become(
        "a", ballooned=40, inflated=40, ready=1, answers=1, pages=128, priority=2, most=768
    )
    second.become("b", ready=1, answers=1, pages=128, priority=1)
    second.become("empty", here=0)
    assert [process_of(second, it) for it in "ab"] == processes
    # Its budget is the new one's: of 256 pages nothing is missing, until a third guest comes.
    eventually(
        lambda: [it["target"] for it in second.guests().values()] == [0, 0, 0], second.guests
    )
    come(second, "empty", {FREE: 0})
    eventually(lambda: [second.guests()[it]["target"] for it in "ab"] == [28, 100], second.guests)


def test_a_lender_without_a_place_for_a_guest_at_work(lend, come, plain):
    """It doesn't start: nobody would count what that guest has. Who isn't there may lack one."""
    first = lend(1, *QUICK)
    come(first, "a", {FREE: 100}), come(first, "b", {FREE: 100}), first.demand("add c")
    leave(first)
    for most, status in (1, 2), (2, 0):
        words = [plain, first.folder, "--budget", "1", "--guests", str(most), "--leave"]
        ran = subprocess.run(words, input=b"leave\n", capture_output=True, timeout=PATIENCE)
        assert ran.returncode == status, ran
        said = "isn't taken over: the host has its"
        assert f"{'cb'[status // 2]} {said} {most} guests: --guests" in ran.stderr.decode()
    second = lend(1, *QUICK, folder=first.folder)
    for name in "ab":
        second.become(name, ready=1, pages=128, lent=128)


def test_the_last_lender_ends_all(lend, come):
    first = lend(2, *QUICK)
    come(first, "a", {FREE: 100})
    process = process_of(first, "a")
    first.kill()
    second = lend(2, *QUICK, folder=first.folder)
    second.become("a", ready=1)
    assert second.close() == 0
    eventually(lambda: has_ended(process))
    assert os.listdir(first.folder) == ["backend.log"]


def test_lenders_one_after_the_other(lend, come):
    lender = lend(2, *QUICK)
    guest = come(lender, "a", {FREE: 100})
    process = process_of(lender, "a")
    for number in range(10):
        guest.give([PAGES + number])
        lender.kill()
        lender = lend(2, *QUICK, folder=lender.folder)
        lender.become("a", ballooned=number + 1, ready=1, answers=1)
    assert process_of(lender, "a") == process
    assert lender.counters()["gone"] == 0


def test_memory_that_comes_while_no_lender_is_there_waits_for_one(lend):
    lender = lend(2, *QUICK)
    client = Client(lender.add("a"), lambda: "")
    client.negotiate()
    lender.become("a", here=1, pages=0)
    lender.kill()
    waits = threading.Thread(target=client.hand_over_memory, daemon=True)
    waits.start()
    waits.join(0.5)
    assert waits.is_alive()
    second = lend(2, *QUICK, folder=lender.folder)
    waits.join(PATIENCE)
    assert not waits.is_alive()
    second.become("a", pages=128)
    client.leave()


def test_a_process_that_ends_while_no_lender_is_there_leaves_its_seat(lend, come):
    lender = lend(2, *QUICK)
    guest = come(lender, "a", {FREE: 100})
    process = process_of(lender, "a")
    lender.kill()
    guest.ended.set(), guest.join()
    guest.client.socket.close()
    eventually(lambda: has_ended(process))
    second = lend(2, *QUICK, folder=lender.folder)
    second.become("a", here=0)
    come(second, "a", {FREE: 50})
    second.become("a", here=1, ready=1)


def test_a_process_that_ends_under_a_later_lender_is_named(lend, come):
    """It isn't that lender's child: how it ended isn't known."""
    first = lend(1, *QUICK)
    come(first, "a", {FREE: 50})
    keeper = int(status_of(process_of(first, "a"))["PPid"])
    first.kill()
    second = lend(1, *QUICK, folder=first.folder)
    second.become("a", ready=1)
    os.kill(keeper, signal.SIGKILL)
    second.become("a", here=0)
    assert second.said()[-2:] == ["a: its process has ended", "gone a"]


@pytest.fixture
def stuck(lend, come):
    """A later lender of a full strict host, one of whose guests can't tell what it has, as its
    process stands still; and the other guests. Of 256 frames a has 68, b, which stands still, 60,
    and c 128."""
    first = lend(1, *QUICK, "--strict")
    a, b = (come(first, it, {FREE: 100}) for it in "ab")
    a.give(list(range(PAGES, PAGES + 60))), b.give(
        [*range(PAGES, PAGES + 64), *range(PAGES_OF_ALL + 20, PAGES_OF_ALL + 24)]
    )
    a.figures, b.figures = {FREE: 0}, {FREE: 0}
    come(first, "c", {FREE: 0})
    assert first.counters()["lent"] == 256
    process = process_of(first, "b")
    stop(process)
    begin = time.monotonic()
    first.kill()
    try:
        yield lend(1, *QUICK, "--strict", folder=first.folder), (a, b), process, begin
    finally:
        go_on(process)


def test_a_later_lender_lends_nothing_before_all_have_told_what_they_have(stuck):
    second, (a, b), process, begin = stuck
    second.become("a", ready=1)
    a.take(list(range(PAGES, PAGES + 10)))
    second.become("a", waits="deflate")
    time.sleep(1)
    used, passed = a.client.used(DEFLATE)[0], time.monotonic() - begin
    go_on(process)
    if passed > TOLD_IN:
        pytest.skip("the machine is too busy")
    assert used == 0
    second.become("b", ready=1, ballooned=68, lent=60)
    assert (second.guests()["a"]["waits"], second.counters()["lent"]) == ("deflate", 256)
    b.give([PAGES_OF_ALL + it for it in range(30, 40)])
    eventually(lambda: a.client.used(DEFLATE)[0] == 1)
    assert second.counters()["lent"] == 256


def test_a_later_lender_waits_for_no_process_for_good(stuck):
    second, (a, _), _, _ = stuck
    second.become("a", ready=1)
    a.take(list(range(PAGES, PAGES + 10)))
    second.demand("budget 2")  # there is room for all pages of that guest, too
    eventually(lambda: a.client.used(DEFLATE)[0] == 1)
    second.become("a", waits="nothing")


@pytest.mark.parametrize("end", WAYS, ids=("leave", "killed"))
def test_a_later_lender_keeps_what_is_lent_to_a_driver_that_is_told_to_take_it(lend, come, end):
    first = lend(1, *QUICK, "--strict")
    a, _ = (come(first, it, {FREE: pages}) for it, pages in zip("ab", (50, 0)))
    pages = list(range(PAGES, PAGES + 50))
    with Connection(f"{first.folder}/.control") as it:
        it.ask("budget", bytes=206 * PAGE)
        first.become("a", asked=50)
        a.give(pages)
        first.become("a", ballooned=50, lent=78)
        a.figures[FREE] = 0
        it.ask("budget", bytes=256 * PAGE)
    first.become("a", ballooned=50, asked=0, lent=128)
    end(first)
    second = lend(1, *QUICK, "--strict", folder=first.folder)
    second.become("a", ready=1, ballooned=50, asked=0, lent=128)
    a.take(pages)
    eventually(lambda: a.client.used(DEFLATE)[0] == 1)
    second.become("a", waits="nothing", ballooned=0, lent=128)
    assert second.counters()["lent"] == 256
