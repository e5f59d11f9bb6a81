"""A limit while it is written, after it couldn't be, and over a change of its client or of the
term: a guest has no page that the kernel doesn't allow it, and what was known of an earlier guest's
limit isn't known of the next one's."""

import os
import socket
import time

import pytest
from host_checks import files_of
from host_places import Mount
from played import Played
from tenants import FREE, begin_writer, eventually, go_on, has_ended, stop, writer_of
from test_strict import GIVEN, STRICT, Later, used
from vhost_client import DEFLATE, PAGE, Client
from waiting import PATIENCE

pytestmark = pytest.mark.skipif(os.geteuid() != 0, reason="mounts and cgroups are for root")

# Pages of a guest, and of it once it has given 50.
ALL, LEFT = 128, 78

# A lender that looks at nothing by itself.
QUIET = ("--strict", "--floor", "0", "--period", "60000", "--step", "0")

# A limit that can't be written is tried again twice a second.
TRIES_A_SECOND = 2


def failures(lender):
    """Returns how often the limit of `a` couldn't be written."""
    return lender.guests()["a"]["limit_failures"]


def again(its):
    """Makes a limit again that has ended."""
    its.mount() if isinstance(its, Mount) else its.make()


def test_while_a_limit_is_lowered_no_more_than_it_is_to_be_is_granted(one):
    lender, a, _, its = one
    writer = writer_of(lender, "a")
    stop(writer)
    a.give(GIVEN[:50])
    lender.become("a", lent=LEFT)
    lender.set_budget(ALL + LEFT + 10)
    a.take(GIVEN[:10])
    lender.become("a", waits="deflate", lent=LEFT + 10)
    time.sleep(0.5)
    assert (a.client.used(DEFLATE)[0], its.pages()) == (0, ALL)
    go_on(writer)
    used(a, DEFLATE, 1)
    assert its.pages() == LEFT + 10


@pytest.mark.parametrize("fails", (True, False), ids=("not-written", "written"))
def test_a_guest_that_holds_more_than_its_limit_allows_counts_like_any_other(one, fails):
    lender, a, _, its = one
    if fails:
        its.end()
    a.give(GIVEN[:50])
    lender.become("a", lent=LEFT)
    eventually(lambda: failures(lender) >= 1) if fails else lender.become("a", limit=LEFT)
    a.fill()  # its memory isn't where the limit is
    lender.become("a", cooperates=0, lent=ALL)
    assert [it for it in lender.said() if "unasked" in it] == [
        "a: has taken 50 pages unasked: all its memory counts as lent from now on"
    ]
    if fails:
        again(its)


def test_a_limit_that_cannot_be_written_is_tried_twice_a_second(one):
    lender, a, _, its = one
    its.end()
    begin = time.monotonic()
    a.give(GIVEN[:50])
    eventually(lambda: failures(lender) >= 4)
    tries = failures(lender)
    assert tries <= TRIES_A_SECOND * (time.monotonic() - begin) + 1
    again(its)
    lender.become("a", limit=LEFT)


def test_the_next_client_has_its_limit_written_before_it_has_room(one):
    """Nobody knows what became of the limit meanwhile."""
    lender, a, _, its = one
    writer = writer_of(lender, "a")
    a.leave()
    lender.become("a", here=0)
    lender.set_budget(2 * ALL)
    stop(writer)
    client = Client(f"{lender.folder}/a")
    client.negotiate()
    comes = Later(client.hand_over_memory)
    assert comes.waits()
    lender.become("a", waits="room", limit=0)
    go_on(writer)
    comes.ends()
    assert its.pages() == ALL
    client.leave()


def test_what_is_answered_for_an_earlier_client_is_none_of_the_next_ones(one):
    """The limit of a client that goes is still to be written, and can't be: its next client has its
    own tries alone."""
    lender, a, _, its = one
    writer = writer_of(lender, "a")
    stop(writer)
    a.give(GIVEN[:50])
    lender.become("a", lent=LEFT)
    a.leave()
    lender.become("a", here=0)
    lender.set_budget(2 * ALL)
    its.end()
    client = Client(f"{lender.folder}/a")
    client.negotiate()
    comes = Later(client.hand_over_memory)
    assert comes.waits()
    go_on(writer)
    eventually(lambda: failures(lender) >= 1)
    again(its)
    comes.ends()
    said = [it for it in lender.said() if "can't be set to" in it]
    assert said and all(f"can't be set to {ALL * 4} KiB: " in it for it in said), said
    client.leave()


def test_another_limit_is_written_and_the_one_before_stays(one, limits):
    """Its writer ends, and the lender has as many files as before."""
    lender, a, _, first = one
    a.give(GIVEN[:50])
    lender.become("a", limit=LEFT)
    second, files = limits("second"), files_of(lender.process.pid)
    for its in (second, first, second):
        writer = writer_of(lender, "a")
        lender.demand(f"terms a limit={its.term}")
        lender.become("a", limit=LEFT)
        assert its.pages() == LEFT
        eventually(lambda: has_ended(writer), "its writer lives on")
    lender.set_budget(ALL + LEFT + 10)
    a.take(GIVEN[:10])
    used(a, DEFLATE, 1)
    assert (second.pages(), first.pages(), files_of(lender.process.pid)) == (LEFT + 10, LEFT, files)
    writer = writer_of(lender, "a")
    lender.demand("terms a limit=none")
    eventually(lambda: has_ended(writer), "its writer lives on")
    assert files_of(lender.process.pid) == files - 1


def test_a_limit_is_written_once_the_writer_of_an_earlier_lender_has_ended(one, lend):
    """That may be amid its last write, and outlives its lender."""
    lender, _, _, _ = one
    writer = writer_of(lender, "a")
    stop(writer)
    lender.kill()
    later = lend(1, *STRICT, folder=lender.folder)
    later.become("a", ready=1)
    time.sleep(0.5)
    assert later.guests()["a"]["limit"] == 0
    go_on(writer)
    later.become("a", limit=ALL)


def test_who_is_removed_takes_its_writer_along(one):
    lender, _, _, _ = one
    writer = writer_of(lender, "a")
    lender.demand("remove a")
    eventually(lambda: has_ended(writer), "its writer lives on")


def test_a_writer_has_no_file_of_what_it_has_written(one):
    lender, a, _, its = one
    files = files_of(writer_of(lender, "a"))
    for number in range(1, 5):
        a.give(GIVEN[10 * number : 10 * number + 10])
        lender.become("a", limit=ALL - 10 * number)
    assert files_of(writer_of(lender, "a")) == files


def test_a_grant_is_told_as_its_limit_is_raised(lend, come, limits):
    """Its process doesn't report before, and isn't asked."""
    lender, its = lend(1, *QUIET), limits("a")
    a = come(lender, "a", {FREE: 100}, f"overhead=0 limit={its.term}")
    lender.set_budget(LEFT)
    a.give(GIVEN[:50])
    lender.become("a", limit=LEFT)
    a.take(GIVEN[:10])
    lender.become("a", waits="deflate")
    lender.set_budget(LEFT + 10)
    used(a, DEFLATE, 1)
    assert its.pages() == LEFT + 10


def test_a_limit_allows_a_page_where_nothing_is_lent(lend, tmp_path):
    """A tmpfs of the size 0 has no limit."""
    lender, its = lend(1, *STRICT), Mount(f"{tmp_path}/a")
    try:
        guest = Played(lender, "a", pages=ALL)
        lender.demand(f"terms a overhead=0 limit={its.term}")
        lender.become("a", limit=ALL)
        guest.report(ballooned=ALL)
        lender.become("a", ballooned=ALL), lender.demand(f"a target {ALL}")
        guest.report(target=ALL, obeyed=ALL + 1)
        lender.become("a", lent=0, limit=1)
        assert its.pages() == 1
        guest.leave()
    finally:
        its.end()


def test_the_kernel_says_why_a_limit_cannot_be_written(lend, come, tmp_path):
    """A tmpfs isn't made smaller than what it has."""
    lender, its = lend(1, *STRICT), Mount(f"{tmp_path}/a")
    try:
        a = come(lender, "a", {FREE: 100}, f"overhead=0 limit={its.term}")
        with open(f"{its.path}/other", "wb") as other:
            os.posix_fallocate(other.fileno(), 0, ALL * PAGE)
        lender.set_budget(LEFT)
        a.give(GIVEN[:50])
        eventually(lambda: failures(lender) >= 1)
        assert (
            f"a: its limit {its.term} can't be set to {LEFT * 4} KiB: tmpfs: Too small a size "
            "for current use"
        ) in lender.said()
        os.unlink(other.name)
        lender.become("a", limit=LEFT)
    finally:
        its.end()


def test_a_writer_ends_by_what_is_no_request(plain):
    for sent in (b"x", bytes(175)):
        ours, its = socket.socketpair(socket.AF_UNIX, socket.SOCK_SEQPACKET)
        writer = begin_writer(plain, its)
        its.close()
        ours.send(sent)
        assert (writer.wait(PATIENCE), ours.recv(4096)) == (1, b"")
        ours.close()
