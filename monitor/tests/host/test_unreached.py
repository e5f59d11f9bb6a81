"""A later lender whose guest's process doesn't report: all its pages, which the folder keeps, count
as lent until it reports or has ended."""

import contextlib
import os
import signal
import socket
import time

import pytest
from played import TELL_REPORT, VERSION, Listens, Message, Played
from tenants import FREE, eventually, go_on, process_of, status_of, stop
from test_held import LOOKED, OUTSIDE, Larger, OneFile, remove_slot
from test_later_lender import leave, upgrade
from test_lies import ended_by
from test_strict import GIVEN, STRICT, Later, lent, used
from vhost_client import DEFLATE, Client
from waiting import PATIENCE

ALL, LENDERS = 128, 4


@pytest.fixture
def stuck(lend, come):
    """A lender whose two guests have all but 50 pages of its budget, of which a's process is
    stopped; with b and that process."""
    lender = lend(1, *STRICT)
    come(lender, "a", {FREE: 0})
    b = come(lender, "b", {FREE: 100})
    lender.set_budget(2 * ALL - 50)
    b.give(GIVEN[:50])
    lender.become("b", ballooned=50, lent=ALL - 50)
    process = process_of(lender, "a")
    stop(process)
    yield lender, b, process
    with contextlib.suppress(ProcessLookupError):
        go_on(process)


def later(lend, lender):
    """Kills a lender, and returns the next one."""
    lender.kill()
    return lend(1, *STRICT, folder=lender.folder)


def test_a_process_that_does_not_report_counts_with_all_its_pages(lend, stuck):
    first, b, process = stuck
    lender = later(lend, first)
    lender.become("b", ballooned=50)
    assert lent(lender) == 2 * ALL - 50
    eventually(lambda: next(it for it in lender.status()["guests"] if it["name"] == "a")["silent"])
    newcomer = Client(lender.add("c"))
    newcomer.negotiate()
    comes = Later(newcomer.hand_over_memory)
    lender.become("c", waits="room")
    b.take(GIVEN[:10])
    used(b, DEFLATE, 1)
    lender.become("b", lent=ALL - 40)
    seen = lender.guests()
    assert [seen["c"][it] for it in ("waits", "lent")] == ["room", 0]
    assert lent(lender) == 2 * ALL - 40
    go_on(process)
    lender.become("a", ready=1, pages=ALL)
    newcomer.socket.shutdown(2)
    comes.join(PATIENCE)
    newcomer.leave()


def test_who_comes_with_too_much_meanwhile_is_refused_then(lend, stuck):
    """While the host awaits that process, it refuses nobody."""
    lender = later(lend, stuck[0])
    lender.set_budget(ALL - 1)
    newcomer = Client(lender.add("c"))
    newcomer.negotiate()
    comes = Later(newcomer.hand_over_memory)
    lender.become("c", waits="room")
    eventually(lambda: "refused c: no room for 512K: 4K are missing" in lender.said(), lender.said)
    lender.become("c", here=0, lent=0)
    newcomer.socket.shutdown(2)
    comes.join(PATIENCE)
    newcomer.leave()


@pytest.mark.parametrize(
    "client, act, frames",
    ((OneFile, remove_slot, ALL), (Larger, lambda a: a.client.fill_outside(), ALL + OUTSIDE)),
    ids=("removed", "filled"),
)
def test_what_is_outside_of_its_slots_counts_too(lend, come, client, act, frames):
    """The folder keeps it, and is written to once."""
    first = lend(1, *STRICT)
    act(come(first, "a", {FREE: 100}, "overhead=0", client=client))
    first.become("a", held_kib=4 * frames, lent=frames)
    kept = lambda: os.lstat(f"{first.folder}/=a").st_ino
    time.sleep(LOOKED)
    before = kept()
    time.sleep(LOOKED)
    assert kept() == before
    process = process_of(first, "a")
    stop(process)
    lender = later(lend, first)
    lender.become("a", here=1, lent=frames)
    go_on(process)


def test_a_process_for_which_lenders_wait_counts_until_it_has_ended(lend, stuck):
    """It is waited for where it listens: where 0.3.0 had its socket nobody is looked for."""
    lender, _, process = stuck
    earlier = f"{lender.folder}/+a"
    with socket.socket(socket.AF_UNIX, socket.SOCK_SEQPACKET) as it:
        it.bind(earlier)
    for _ in range(LENDERS):
        lender = later(lend, lender)
        lender.become("b", ready=1)
        lender.become("a", here=1, pages=ALL, lent=ALL)
    assert os.path.exists(earlier)
    os.kill(int(status_of(process)["PPid"]), signal.SIGKILL)
    lender.become("a", here=0, pages=0, lent=0)
    assert lent(lender) <= ALL


def test_a_process_reports_no_more_than_the_folder_keeps(lend):
    lender = lend(1, *STRICT)
    a = Played(lender, "a", pages=ALL)
    lender.kill()
    os.unlink(f"{lender.folder}/.channels/a")
    listens = Listens(lender.folder, "a")
    lender = lend(1, *STRICT, folder=lender.folder)
    with listens.accept() as channel:
        channel.send(
            bytes(Message(version=VERSION, kind=TELL_REPORT, holds=1, ready=1, pages=ALL + 1))
        )
        words = "refused a: its process reports pages that nobody has granted"
        eventually(lambda: lender.hear() or words in lender.said(), lender.said)
        lender.become("a", here=0, lent=0)
    a.channel.close()


@pytest.mark.parametrize("end", (leave, upgrade))
def test_a_process_that_was_to_end_is_killed_as_its_lender_goes(lend, end):
    """Who was removed is in no later lender's hands."""
    lender = lend(1, *STRICT)
    a = Played(lender, "a", pages=ALL)
    lender.demand("remove a")
    end(lender)
    eventually(lambda: ended_by(a.listens.child) == signal.SIGKILL)
    assert "a doesn't end, and is killed" in lender.said(), lender.said()
    a.channel.close()


@pytest.mark.parametrize("strict", (0, 1))
def test_a_guest_has_no_pages_of_which_no_later_lender_would_know(lend, strict):
    """That one would end it, as it has pages that nobody has granted."""
    lender = lend(1, *STRICT)
    client = Client(lender.add(f"a strict={strict}"))
    unkept = f"{lender.folder}/.=a"
    os.mkdir(unkept)  # where the folder's note of it is made
    client.negotiate()
    comes = Later(client.hand_over_memory)
    lender.tells("a: its pages can't be kept for a later lender: File exists")
    assert comes.waits()
    os.rmdir(unkept)
    comes.ends()
    lender.become("a", pages=ALL)
    later(lend, lender).become("a", here=1, pages=ALL)
    client.leave()
