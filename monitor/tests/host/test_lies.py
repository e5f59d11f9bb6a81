"""A guest's process that somebody has taken over, and that lies: the lender ends its service, and
lends to the others as before."""

import contextlib
import os
import re
import signal
import threading
import time

import pytest
from played import TELL_GONE, TELL_REMARK, TELL_REPORT, VERSION, WAIT_ROOM, Listens, Message, Played
from tenants import FREE, eventually, go_on, process_of, stop
from test_later_states import seen
from test_strict import GIVEN, STRICT, Later, lent, used
from vhost_client import DEFLATE, PAGE, Client

ALL, MOST_PAGES, HUGE = 128, 1 << 24, (1 << 32) - 1

# Words of a process in a second: more than a lender prints, and than it reads at once.
MANY, LEFT_OUT = 60, "a: further lines of this second are left out"

TOO_MANY = "more pages than a guest may have"

# What a process may report up to the pages that a guest's memory has at most.
MAY_BE = ("ballooned", "held_pages", "ballooned_then", "outside")

# What a process that was granted all pages of its guest reports, and why that isn't believed.
LIES = {
    "pages": ({"pages": ALL + 1}, "pages that nobody has granted"),
    "no loan": ({"holds": 0, "pages": 4_000_000_000}, TOO_MANY),
    "holds": ({"holds": 0}, "that its deflates don't wait"),
    **{
        f"held {it}": ({"held_kib": it}, "more memory that it holds than there is")
        for it in (1 << 34, (1 << 64) - 4096)
    },
    "waits": ({"waits": 3, "wait": 1}, "a wait that isn't one"),
    **{
        f"migration {it}": ({"migration": it}, "a migration that isn't one")
        for it in (3, 256, HUGE)
    },
    "wanted": ({"waits": WAIT_ROOM, "wait": 1, "wanted": MOST_PAGES + 1}, TOO_MANY),
    **{
        f"{it} {pages}": ({it: pages}, TOO_MANY)
        for it in MAY_BE
        for pages in (MOST_PAGES + 1, HUGE)
    },
}


def ended_by(child):
    """Returns the signal that has ended a process of the test's; 0 where it is there."""
    found, status = os.waitpid(child, os.WNOHANG)
    return os.WTERMSIG(status) if found else 0


@pytest.mark.parametrize("lie", LIES)
def test_a_lie_ends_the_service_of_its_process_alone(lend, come, lie):
    changed, why = LIES[lie]
    lender = lend(1, *STRICT)
    b = come(lender, "b", {FREE: 100})
    b.give(GIVEN[:50])
    lender.become("b", ballooned=50)
    a = Played(lender, "a", pages=ALL)
    held = lender.counters()["held_kib"]
    assert lent(lender) == 2 * ALL
    a.report(**changed)
    eventually(lambda: ended_by(a.listens.child) == signal.SIGKILL)
    eventually(
        lambda: lender.hear() or f"refused a: its process reports {why}" in lender.said(),
        lender.said,
    )
    lender.become("a", here=0, pages=0)
    assert lender.counters()["held_kib"] <= held
    b.take(GIVEN[:10])
    used(b, DEFLATE, 1)
    lender.become("b", ballooned=40)
    assert lent(lender) == ALL
    a.channel.close()


@pytest.mark.parametrize(
    "changed",
    [{"held_kib": (1 << 34) - 1}, *({it: MOST_PAGES, "held_kib": 0} for it in MAY_BE)],
    ids=str,
)
def test_the_most_that_is_believed(lend, changed):
    lender = lend(1, *STRICT)
    a = Played(lender, "a", pages=ALL)
    a.report(**changed)
    a.report(actual=7)
    eventually(lambda: lender.status()["guests"][0]["actual"] == 7 * PAGE, lender.said)
    assert not [it for it in lender.said() if "refused" in it]
    a.leave()


def test_pages_stay_lent_until_a_process_that_says_its_client_has_gone_has_ended(lend):
    lender = lend(1, *STRICT)
    a = Played(lender, "a", pages=ALL)
    held = lender.counters()["held_kib"]
    a.say(TELL_GONE)
    eventually(lambda: lender.hear() or "gone a" in lender.said(), lender.said)
    assert lender.counters()["held_kib"] == held
    b = Client(lender.add("b"))
    b.negotiate()
    lender.set_budget(2 * ALL - 1)
    comes = Later(b.hand_over_memory)
    lender.become("b", waits="room", lent=0)
    a.report(pages=0, ballooned=0)
    assert comes.waits()
    assert lender.guests()["a"]["lent"] == lent(lender) == ALL
    a.leave()
    comes.ends()
    lender.become("a", here=0, lent=0)
    assert lent(lender) == ALL
    b.leave()


def test_a_flood_of_words_hides_none_of_the_lenders(lend):
    lender = lend(1, *STRICT)
    a = Played(lender, "a", pages=ALL)
    for number in range(MANY):
        a.say(TELL_REMARK, b"noise\nb: has taken 1 pages unasked \x1b[2J%d" % number)
    eventually(lambda: lender.hear() or LEFT_OUT in lender.said(), lender.said)
    a.report(pages=ALL + 1)
    words = "refused a: its process reports pages that nobody has granted"
    eventually(lambda: lender.hear() or words in lender.said(), lender.said)
    noise = [it for it in lender.said() if "noise" in it]
    assert noise[0] == "a: noise?b: has taken 1 pages unasked ?[2J0"
    assert all(it.startswith("a: noise?b: has taken") for it in noise) and len(noise) < MANY
    a.channel.close()


def test_words_of_a_process_have_nothing_that_a_terminal_obeys(lend):
    """All that is printed in ASCII stays, from the blank to the tilde."""
    lender = lend(1, *STRICT)
    a, stays = Played(lender, "a", pages=ALL), bytes((*range(0x20, 0x30), *range(0x70, 0x7F)))
    a.say(TELL_REMARK, stays + bytes((0x01, 0x1F, 0x7F, 0x80, 0x9B, 0xFF)))
    words = f"a: {stays.decode('ascii')}??????"
    eventually(lambda: lender.hear() or words in lender.said(), lender.said)
    a.channel.close()


def test_a_process_answers_for_its_own_guest_alone(lend, come):
    lender = lend(1, *STRICT)
    come(lender, "b", {FREE: 100})
    a, process = Played(lender, "a", pages=ALL), process_of(lender, "b")
    stop(process)
    try:
        ends = threading.Event()
        answers = threading.Thread(target=answer_all, args=(a, ends))
        answers.start()
        assert [lender.ask("b ask") for _ in range(5)] == 5 * ["nothing"]
        ends.set(), answers.join()
        lender.become("b", reports=0)
    finally:
        go_on(process)
    a.leave()


def answer_all(played, ends):
    """Answers orders that were given to others."""
    number = 0
    while not ends.is_set():
        number = number % 300 + 1
        played.report(number=number, asked=1)
        time.sleep(0.001)


def test_the_first_report_to_a_later_lender_is_bounded(lend):
    lender = lend(1, *STRICT)
    listens = Listens(lender.folder, "a")
    lender.demand("add a strict=1")
    with contextlib.suppress(ConnectionError):  # it may report twice before it ends
        Played(lender, "a", listens=listens, ballooned=MOST_PAGES + 1)
    eventually(lambda: ended_by(listens.child) == signal.SIGKILL)
    eventually(
        lambda: lender.hear() or f"refused a: its process reports {TOO_MANY}" in lender.said(),
        lender.said,
    )


# Pages of a guest once it has lost its second slot, which are outside then.
LEFT = 64


@pytest.fixture
def limited(lend, limits):
    """A host, the process of a guest whose limit allows what is lent to it, and the limit."""
    lender, its = lend(1, *STRICT), limits("a")
    a = Played(lender, "a", pages=ALL, ballooned=10)
    lender.demand(f"terms a overhead=0 limit={its.term}")
    lender.become("a", limit=ALL)
    return lender, a, its


def has_looked(lender):
    """Waits until a lender has looked at its guests twice."""
    looks = lender.counters()["looks"]
    eventually(lambda: lender.counters()["looks"] >= looks + 2)


def test_a_limit_is_not_raised_by_what_a_process_says_to_hold(limited):
    lender, a, its = limited
    a.report(held_kib=4 * MOST_PAGES)
    lender.become("a", cooperates=0)
    has_looked(lender)
    assert (lender.guests()["a"]["lent"], its.pages(), lent(lender)) == (ALL, ALL, ALL)
    a.leave()


@pytest.mark.parametrize("lie", ({"ballooned": 9}, {"held_kib": 4 * MOST_PAGES}), ids=" ".join)
def test_pages_return_once_whatever_a_process_says_besides(limited, lie):
    lender, a, its = limited
    a.report(pages=LEFT, outside=ALL - LEFT)
    lender.become("a", pages=LEFT, lent=ALL)
    for _ in range(3):
        a.report(pages=ALL, outside=0, **lie)
    lender.become("a", cooperates=0)
    has_looked(lender)
    assert (lender.guests()["a"]["lent"], its.pages()) == (ALL, ALL)
    assert sum("its limit stays" in it for it in lender.said()) == ("ballooned" in lie)
    a.report(pages=ALL + 1)
    eventually(lambda: ended_by(a.listens.child) == signal.SIGKILL)
    a.channel.close()


def test_a_guest_that_is_not_strict_has_no_more_outside_than_it_lost(lend):
    lender = lend(1, *STRICT)
    a = Played(lender, "a", holds=0, pages=ALL)
    a.report(outside=MOST_PAGES)
    has_looked(lender)
    assert lent(lender) == ALL
    a.report(pages=LEFT)
    lender.become("a", pages=LEFT, lent=ALL)
    a.leave()


def test_who_is_not_strict_comes_without_nothing_by_what_a_process_says(lend):
    """It is let in where there is room for all of its memory."""
    lender = lend(1, *STRICT)
    lender.set_budget(ALL - 1)
    lender.demand("add a strict=0")
    keep_pages(lender, f"terms 0 {HUGE} 1 0 0 {HUGE} {HUGE} {HUGE} 1 0 none")
    listens = Listens(lender.folder, "a")
    later = lend(1, *STRICT, folder=lender.folder)
    later.set_budget(ALL - 1)
    a = Played(later, "a", listens=listens, holds=0, ballooned=ALL, held_kib=0)
    a.report(waits=WAIT_ROOM, wait=1, wanted=ALL)
    words = "refused a: no room for 512K: 4K are missing"
    eventually(lambda: later.hear() or words in later.said(), later.said)
    assert lent(later) == 0
    a.leave()


# What an earlier lender's process has beside the pages that were kept.
MORE = {
    "pages": {"pages": ALL + 1},
    "outside": {"pages": ALL, "outside": 1},
    "room": {"pages": ALL + 1, "waits": WAIT_ROOM, "wait": 1, "wanted": ALL + 2},
}


@pytest.mark.parametrize("more", MORE)
def test_a_later_lender_takes_no_more_than_was_kept(lend, more):
    lender = lend(1, *STRICT)
    lender.demand("add a strict=1")
    keep_pages(lender)
    listens = Listens(lender.folder, "a")
    later = lend(1, *STRICT, folder=lender.folder)
    channel = listens.accept()
    channel.send(bytes(Message(version=VERSION, kind=TELL_REPORT, holds=1, ready=1, **MORE[more])))
    eventually(lambda: ended_by(listens.child) == signal.SIGKILL)
    channel.close()
    words = "refused a: its process reports pages that nobody has granted"
    eventually(lambda: later.hear() or words in later.said(), later.said)


def keep_pages(lender, kept=None):
    """Kills a lender, which has kept that a guest has all its pages, or what is said."""
    link = f"{lender.folder}/=a"
    lender.kill()
    os.unlink(f"{lender.folder}/.channels/a")
    kept = kept or re.sub(r" 0 none$", f" {ALL} none", os.readlink(link))
    os.unlink(link), os.symlink(kept, link)


def terms_after(lend, lender, kept=None):
    """Returns a guest's terms by the next lender, to which its process tells others; where the
    folder has other ones `kept`, by these."""
    keep_pages(lender, kept)
    listens = Listens(lender.folder, "a")
    later = lend(1, *STRICT, folder=lender.folder)
    a = Played(
        later, "a", listens=listens, pages=ALL, has_terms=1, least=7, most=9, priority=8, strict=0
    )
    later.become("a", lent=ALL)
    found = seen(later)["terms"]
    a.leave()
    later.become("a", here=0)
    return later, found


# The terms of a guest of which nothing else is said.
USUAL = {"weight": 1} | dict.fromkeys(("limit", "user", "memory", "start"))


def in_pages(**its):
    """Returns terms in bytes, by their pages."""
    return {name: it * PAGE for name, it in its.items()}


def test_a_process_tells_no_terms_of_its_own(lend):
    lender = lend(1, *STRICT)
    lender.demand("add a least=0 most=1 priority=2 strict=1 overhead=5")
    later, found = terms_after(lend, lender)
    its = in_pages(least=0, most=256, overhead=5 * 256)
    assert found == USUAL | its | {"priority": 2, "strict": True}
    # Of a process of 0.3.0 they count once, as that kept two terms in the folder.
    later, found = terms_after(lend, later, "3 none")
    its = in_pages(least=7, most=9, overhead=3)
    assert found == USUAL | its | {"priority": 8, "strict": False}
    kept = f"terms 0 256 3 1 0 {HUGE} 300 290 7 {ALL} none"
    os.unlink(f"{later.folder}/=a"), os.symlink(kept, f"{later.folder}/=a")
    its = in_pages(least=0, most=256, overhead=0, memory=300, start=290)
    others = {"priority": 3, "strict": True, "weight": 7}
    assert terms_after(lend, later)[1] == USUAL | its | others


def test_the_process_of_a_guest_that_was_removed_is_killed_where_it_stays(lend):
    lender = lend(1, *STRICT)
    a = Played(lender, "a", pages=ALL)
    lender.demand("remove a")
    eventually(lambda: ended_by(a.listens.child) == signal.SIGKILL)
    eventually(lambda: lent(lender) == 0)
    words = "a: its process doesn't end, and is killed"
    eventually(lambda: lender.hear() or words in lender.said(), lender.said)
    assert a.told_to_leave > 1 and lender.said().count(words) == 1
    a.channel.close()


def test_it_is_killed_in_time_however_seldom_guests_are_looked_at(lend):
    lender = lend(1, *STRICT, "--period", "60000")
    a = Played(lender, "a", pages=ALL)
    lender.demand("remove a")
    eventually(lambda: ended_by(a.listens.child) == signal.SIGKILL)
    assert lender.status()["host"]["counters"]["looks"] == 0
    a.channel.close()
