"""What a host does between two of its looks, and what it leaves until then."""

import time

import pytest
from kept import Kept, structs
from played import (
    HAS_STARTED_SMALL,
    ORDER_GRANT,
    ORDER_LOOK,
    ORDER_REMIND,
    ORDER_TARGET,
    TELL_REPORT,
    VERSION,
    WAIT_ROOM,
    Message,
    Played,
)
from tenants import FREE, eventually, process_of, read_target
from test_channels import channel
from test_strict import GIVEN, STRICT, used
from vhost_client import DEFLATE, INFLATE, PAGE, Client
from vhost_demands import demand_served

# A host that looks at its guests once a minute; how often a story is told again that has lasted
# longer, as the machine is busy; and the seconds in which all that was said is heard.
SELDOM = ("--floor", "0", "--reserve", "0", "--step", "0", "--period", "60000")
TRIES, HEARD = 3, 0.5

# Seconds between two reports that nobody asked for, and how many pages are given one by one: there
# is room in the channel for a report of each.
NEWS_EVERY, LAST = 0.01, 50

# A host that looks at its guests twice a second; after how many questions that it leaves unanswered
# a guest is silent; and the counters of a guest's process.
TWICE, SILENT_AFTER = (*SELDOM[:-1], "500"), 3
COUNTED = [it for _, it in structs()["counters"]]

# What guests report that are asked for nothing: the first one that it is on its target.
OFF = ({}, {"target": 1}, {"actual": 1}, {"ballooned": 1}, {"holds": HAS_STARTED_SMALL})


def has_target(lender, name, pages):
    """Waits until a guest is asked for these pages, by what a host shows, for which it asks nobody
    for a report."""

    def target():
        return next(it["target"] for it in lender.status()["guests"] if it["name"] == name)

    eventually(
        lambda: target() == pages * PAGE, lambda: f"{name} is asked for {target() // PAGE} pages"
    )


def statistics_are_heard(lender, come):
    """Who had none free, and has some now, is asked for them."""
    guest = come(lender, "a", {FREE: 0})
    lender.set_budget(78)
    guest.figures[FREE] = 100
    has_target(lender, "a", 0)
    lender.demand("a ask")
    has_target(lender, "a", 50)


def pages_are_taken_unasked(lender, come):
    """Who takes what it gave has none free: another one is asked."""
    a = come(lender, "a", {FREE: 100}, "strict=0")
    come(lender, "b", {FREE: 100}, "strict=0 priority=1")
    lender.set_budget(156)
    has_target(lender, "a", 100), has_target(lender, "b", 0)
    a.give(GIVEN[:100])
    lender.become("a", ballooned=100)
    a.take(GIVEN[:100])
    has_target(lender, "b", 100)


def pages_are_taken_that_nobody_granted(lender, come):
    """What each guest is asked for is decided again."""
    liar = Played(lender, "a", pages=128, ballooned=50, target=50)
    decisions = lambda: lender.status()["host"]["counters"]["decisions"]
    time.sleep(HEARD)
    before = decisions()
    liar.report(ballooned=40)
    eventually(lambda: decisions() > before, "nothing is decided")
    liar.leave()


def a_deflate_is_held(lender, come):
    """It is granted."""
    guest = come(lender, "a", {FREE: 100})
    lender.set_budget(78)
    has_target(lender, "a", 50)
    guest.give(GIVEN[:50])
    lender.become("a", ballooned=50, lent=78)
    lender.set_budget(128)
    has_target(lender, "a", 0)
    time.sleep(HEARD)
    guest.take(GIVEN[:10])
    used(guest, DEFLATE, 1)


def two_have_given(lender, come):
    """Returns two guests that have given 50 of their 128 pages, so that there is room for no
    more."""
    guests = [come(lender, it, {FREE: 100}) for it in ("a", "b")]
    lender.set_budget(156)
    for it in ("a", "b"):
        has_target(lender, it, 50)
    for it in guests:
        it.give(GIVEN[:50])
    for it in ("a", "b"):
        lender.become(it, ballooned=50, lent=78)
    return guests


def a_deflate_waits_for_another_guest(lender, come):
    """It is granted by what that one gives."""
    one, other = two_have_given(lender, come)
    other.take(GIVEN[:20])
    time.sleep(HEARD)
    one.give(GIVEN[50:70])
    used(other, DEFLATE, 1)


def who_was_granted_may_give_again(lender, come):
    """Another one, which was asked for nearly all that it can give, gets its part then, too."""
    one, other = two_have_given(lender, come)
    other.take(GIVEN[:40])
    has_target(lender, "a", 95)
    one.give(GIVEN[50:95])
    used(other, DEFLATE, 1)
    has_target(lender, "a", 50), has_target(lender, "b", 50)


def a_target_waits_for_another_guest(lender, come):
    """It falls by what that one gives."""
    one, other = two_have_given(lender, come)
    process = Kept(process_of(lender, "a"))
    lender.demand("a target 0"), lender.demand("b target 70")
    time.sleep(HEARD)
    other.give(GIVEN[50:70])
    eventually(lambda: process["target_pages"] == 30)


def memory_is_added(lender, come):
    """Its process is told so, which has said once that it waits."""
    guest = Played(lender, "a", pages=10)
    guest.report(waits=WAIT_ROOM, wait=1, wanted=20)
    eventually(lambda: guest.admitted == 1)
    guest.leave()


def statistics_are_waited_for(lender, come):
    """Who can be asked, and doesn't answer, is waited for until it is clear that it won't soon."""
    come(lender, "a", {FREE: 100}).answers = False
    return lender.ask("a ask") == "asked"


STORIES = (
    statistics_are_heard,
    pages_are_taken_unasked,
    pages_are_taken_that_nobody_granted,
    a_deflate_is_held,
    a_deflate_waits_for_another_guest,
    who_was_granted_may_give_again,
    a_target_waits_for_another_guest,
    memory_is_added,
    statistics_are_waited_for,
)


@pytest.mark.parametrize("story", STORIES)
def test_what_waits_for_no_look(lend, come, story):
    for number in range(TRIES):
        lender = lend(1, *SELDOM, "--strict")
        if story(lender, come) is not False and lender.counters()["looks"] == 0:
            return
        lender.close()
    raise AssertionError("it waits for a look")


def test_lines_ask_no_guest_for_its_statistics(lend, come):
    lender = lend(1, *SELDOM)
    come(lender, "a", {FREE: 100})
    before = lender.guests()["a"]["statistics"]
    for _ in range(10):
        lender.guests(), lender.counters(), lender.demand("a counters")
        time.sleep(HEARD / 10)
    assert lender.guests()["a"]["statistics"] == before


def test_an_order_to_look_is_answered_once(lend, come):
    lender = lend(1, *SELDOM)
    come(lender, "a", {FREE: 100})
    lender.kill()
    with channel() as it:
        it.connect(f"{lender.folder}/.channels/a")
        for number in (7, 1, 8):
            it.send(bytes(Message(version=VERSION, kind=ORDER_LOOK, number=number)))
        reports = []
        while not reports or reports[-1].number != 8:
            reports.append(Message.from_buffer_copy(it.recv(1 << 16)))
    assert {(its.kind, its.asked) for its in reports} == {(TELL_REPORT, 0)}
    assert [its.number for its in reports if its.number] == [7, 1, 8]
    lend(1, *SELDOM, folder=lender.folder)


def report_that(it, holds):
    """Returns the first report for which something holds, and how many came until then."""
    count = 1
    while not holds(its := Message.from_buffer_copy(it.recv(1 << 16))):
        count += 1
    return its, count


@pytest.fixture
def unasked(lend, come):
    """A guest, and the channel of a lender to its process, which asks it for nothing."""
    lender = lend(1, *SELDOM, "--strict")
    guest = come(lender, "a", {FREE: 100})
    lender.kill()
    with channel() as it:
        it.connect(f"{lender.folder}/.channels/a")
        yield guest, it
    lend(1, *SELDOM, folder=lender.folder)


def test_what_changes_at_once_is_told_together(unasked):
    """After a report there is none for a hundredth of a second, and the next one has all."""
    guest, it = unasked
    begin = time.monotonic()
    for page in GIVEN[:LAST]:
        guest.give([page]), guest.client.kick(INFLATE)  # whose answer comes once that is served
    _, count = report_that(it, lambda its: its.ballooned == LAST)
    assert count <= (time.monotonic() - begin) / NEWS_EVERY + 3, f"{LAST} changes, {count} reports"


def test_a_target_that_is_read_is_told_unasked(unasked):
    """By a driver that has read another one before."""
    guest, it = unasked
    with guest.lock:
        read_target(guest.client)
    for target in 20, 30, 10:
        it.send(bytes(Message(version=VERSION, kind=ORDER_TARGET, target=target)))
        read, _ = report_that(it, lambda its, pages=target: its.obeyed == pages + 1)
        assert (read.number, read.asked) == (0, 0)


def test_a_deflate_that_is_held_is_told_at_once(unasked):
    guest, it = unasked
    seconds = []
    for page in GIVEN[:20]:
        guest.give([page])
        report_that(it, lambda its: its.ballooned == 1)
        begin = time.monotonic()
        guest.take([page])
        held, _ = report_that(it, lambda its: its.held_pages == 1)
        seconds.append(time.monotonic() - begin)
        it.send(bytes(Message(version=VERSION, kind=ORDER_GRANT, wait=held.held_wait)))
        report_that(it, lambda its: its.ballooned == 0)
    assert min(seconds) < NEWS_EVERY / 2, seconds


def test_an_overdraft_is_lent_once_nothing_has_moved_for_a_second(lend, come):
    lender = lend(1, *STRICT, "--overdraft", "10")
    guest = come(lender, "a", {FREE: 50})
    lender.set_budget(78)
    has_target(lender, "a", 50)
    guest.give(GIVEN[:50])
    lender.become("a", ballooned=50, lent=78)
    begin = time.monotonic()
    guest.take(GIVEN[:10])
    used(guest, DEFLATE, 1)
    assert time.monotonic() - begin >= 1
    assert not [it for it in lender.said() if "has waited" in it]


class Unanswering(Played):
    """A guest that answers the first question for its statistics: how many there were since, and
    after how many of them it was to be reminded of its target."""

    questions, reminded = -1, ()

    def obey(self, order):
        if order.kind == ORDER_REMIND and self.questions >= 0:
            self.reminded += (self.questions,)
        super().obey(order)
        if order.kind == ORDER_LOOK and order.asks:
            self.questions += 1
            self.report(counters=tuple(it == "statistics" for it in COUNTED))


def test_who_is_off_its_target_is_reminded_until_it_is_silent(lend):
    for _ in range(TRIES):
        lender = lend(1, *TWICE)
        guests = [Unanswering(lender, it, pages=10, **its) for it, its in zip("abcde", OFF)]
        eventually(lambda its=guests: all(it.questions >= SILENT_AFTER + 2 for it in its))
        for it in guests:
            it.leave()
        after = [set(it.reminded) - {0} for it in guests]
        if after == [set()] + [set(range(1, SILENT_AFTER + 1))] * (len(OFF) - 1):
            return
        lender.close()
    raise AssertionError(f"after how many questions each is reminded: {after}")


def test_who_comes_late_is_reminded_of_its_target(lend):
    """However often nobody was there who could be asked before."""
    for _ in range(TRIES):
        lender = lend(1, *TWICE)
        looks = lambda of=lender: of.counters()["looks"]
        lender.demand("add a"), eventually(lambda its=looks: its() > SILENT_AFTER)
        client = Client(f"{lender.folder}/a")
        client.start_by_events()
        demand_served(client, INFLATE, GIVEN[:3])
        end = looks() + SILENT_AFTER
        eventually(lambda its=looks, end=end: its() > end)
        if lender.status()["guests"][0]["counters"]["told"] > 0:
            return client.leave()
        client.leave(), lender.close()
    raise AssertionError("it isn't reminded")


def test_a_driver_is_told_its_target_again_where_its_balloon_stays(unasked):
    """It may have missed it: but not while its balloon moves, or where that is at its target."""
    guest, it = unasked
    order = lambda kind, **its: it.send(bytes(Message(version=VERSION, kind=kind, **its)))

    def told():
        order(ORDER_LOOK, number=(number := next(numbers)))
        its, _ = report_that(it, lambda its: its.number == number)
        return its.counters[COUNTED.index("told")]

    def reminded():
        before = told()
        order(ORDER_REMIND)
        return told() - before

    numbers = iter(range(1, LAST))
    guest.give(GIVEN[:5])
    used(guest, INFLATE, 1)
    before = told()
    order(ORDER_TARGET, target=20)
    assert told() == before + 1
    assert [reminded() for _ in range(2)] == [1, 1]
    for count, pages in enumerate((GIVEN[5:10], GIVEN[10:15], GIVEN[15:20])):
        guest.give(pages)
        used(guest, INFLATE, count + 2)
        assert reminded() == 0
        assert reminded() == (count < 2)
