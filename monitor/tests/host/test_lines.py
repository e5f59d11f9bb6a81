"""Who comes first on a strict host: deflates come before new lives of guests. Guests have 128
pages."""

import time

import pytest
from bigvasta.connection import Connection
from played import WAIT_RESET, Played
from tenants import FREE, eventually
from test_strict import GIVEN, STRICT, Later, lent, used, waits_of
from vhost_client import DEFLATE, PAGE, RESET_DEVICE, SET_OWNER, UML_PROTOCOL, Client

# The protocol feature by which a device is reset.
RESETS = 1 << 13


@pytest.fixture
def given(lend, come):
    """A host with two guests, which have given 50 and 60 pages, and of which the first gives before
    the second; and what sets its budget to these pages."""
    lender = lend(1, *STRICT)
    a, b = (come(lender, name, {FREE: pages}) for name, pages in zip("ab", (50, 60)))
    lender.demand("terms b priority=1")
    lender.set_budget(146)
    lender.become("a", target=50), lender.become("b", target=60)
    a.give_free(GIVEN[:50]), b.give_free(GIVEN[:60])
    lender.become("a", ballooned=50, lent=78), lender.become("b", ballooned=60, lent=68)
    a.figures[FREE] = b.figures[FREE] = 100
    lender.become("a", spare=128), lender.become("b", spare=128)
    return lender, a, b, lender.set_budget


def begin_anew(guest):
    """A guest's driver ends, to which nothing is lent ahead then though its target falls, and
    restarts, which may have to wait."""
    guest.ended.set(), guest.join()
    for number in range(4):
        assert guest.client.enable(number, 0) == bytes(8)
    guest.lender.become(guest.name_of, ready=0, target=0)
    for number in range(4):
        guest.client.place(number)
    return Later(lambda: [guest.client.enable(number) for number in range(4)])


def test_a_new_life_waits_for_what_was_in_the_balloon(given):
    lender, a, _, set_budget = given
    set_budget(146)
    begins = begin_anew(a)
    assert begins.waits(), (begins.fault, lender.guests()["a"], lender.said())
    lender.become("a", waits="reset", ballooned=50, lent=78)
    set_budget(196)  # 68 are lent to the other one
    begins.ends()
    lender.become("a", waits="nothing", ballooned=0, lent=128)


class Resetting(Client):
    """A client that may reset its device, and kicks by messages."""

    def begin(self, protocol=UML_PROTOCOL | RESETS):
        super().begin(UML_PROTOCOL | RESETS)


# How a client resets its device, whatever its driver has put into the balloon.
WAYS = {
    "the device": lambda client: client.accepted(RESET_DEVICE),
    "the session": lambda client: client.accepted(SET_OWNER),
}


@pytest.mark.parametrize("pages", (1, 50))
@pytest.mark.parametrize("way", WAYS)
def test_a_reset_waits_for_what_was_in_the_balloon(lend, come, way, pages):
    lender = lend(1, *STRICT)
    a = come(lender, "a", {FREE: 100}, client=Resetting)
    lender.set_budget(128 - pages)
    lender.become("a", asked=pages)
    a.give(GIVEN[:pages])
    lender.become("a", ballooned=pages, lent=128 - pages)
    a.ended.set(), a.join()
    resets = Later(lambda: WAYS[way](a.client))
    lender.become("a", waits="reset", ballooned=pages, lent=128 - pages)
    assert resets.waits()
    lender.set_budget(128)
    resets.ends()
    lender.become("a", waits="nothing", ballooned=0)
    assert lender.counters()["gone"] == 0


def test_a_deflate_passes_a_new_life(given):
    """A driver in a deflate can give no pages, for which the new life of another guest waits: so
    the deflate comes first, where there is room for it."""
    lender, a, b, set_budget = given
    set_budget(160)  # 146 are lent
    begins = begin_anew(a)
    lender.become("a", waits="reset", lent=78), lender.become("b", lent=68)
    b.take(GIVEN[:10])
    used(b, DEFLATE, 1)
    lender.become("b", waits="nothing", ballooned=50, lent=78)
    assert begins.waits() and (waits_of(lender, "a"), lent(lender)) == ("reset", 156)
    b.give(GIVEN[60:105])
    lender.become("b", ballooned=95, lent=33)
    assert begins.waits()  # a page is missing
    b.give(GIVEN[105:106])
    begins.ends()
    lender.become("a", waits="nothing", ballooned=0, lent=128)
    assert lent(lender) == 160


def test_a_new_life_takes_the_place_of_its_own_deflate(lend):
    """Room for the deflate is none for the new life."""
    lender = lend(1, *STRICT)
    lender.set_budget(78)
    guest = Played(lender, "a", pages=128, ballooned=50, target=50)
    guest.deflates(10)
    lender.become("a", waits="deflate", lent=78)
    guest.report(waits=WAIT_RESET, wait=1, wanted=50)
    lender.become("a", waits="reset", lent=78)
    lender.set_budget(88)
    time.sleep(0.5)
    assert not guest.is_granted() and lent(lender) == 78
    lender.set_budget(128)
    lender.become("a", lent=128)
    guest.leave()


def test_who_waits_for_pages_that_nobody_can_give_is_named_once(given):
    """There is no room for the deflate either: each waits for the other, and only a larger budget
    helps, or the end of one."""
    lender, a, b, set_budget = given
    set_budget(150)  # 146 are lent
    begins = begin_anew(a)
    lender.become("a", waits="reset", lent=78), lender.become("b", lent=68)
    b.take(GIVEN[:10])
    lender.become("b", waits="deflate")
    said = [
        f"{it}: all guests together can't give 56 of those that are missing"
        for it in ("50 pages (reset)", "10 pages (deflate)")
    ]

    def named():
        return [it for it in lender.said() if "seconds for" in it]

    eventually(lambda: len(named()) == 2, lender.said)
    assert sorted(named()) == [
        f"{name}: has waited 10 seconds for {it}" for name, it in zip("ab", said)
    ]
    set_budget(155), time.sleep(1)
    assert len(named()) == 2 and b.client.used(DEFLATE)[0] == 0
    set_budget(156)
    used(b, DEFLATE, 1)
    assert begins.waits()
    b.leave()
    begins.ends()
    assert lent(lender) == 128


def test_what_was_given_for_an_earlier_target_is_taken_back_at_once(given):
    """A target falls while the driver's request for the one before is on its way. The driver takes
    back what is beyond its target now: it doesn't wait for these pages, though another guest does,
    since it could give none meanwhile."""
    lender, a, b, set_budget = given
    a.figures, b.figures = {FREE: 30}, {FREE: 0}
    lender.become("a", spare=80), lender.become("b", spare=60)
    set_budget(146)
    lender.become("a", asked=80), lender.become("b", target=30)
    a.figures = {FREE: 0}
    lender.become("a", asked=50), lender.become("b", asked=60)
    b.take(GIVEN[:10])
    lender.become("b", waits="deflate")
    a.give(GIVEN[50:80])
    lender.become("a", ballooned=80, lent=78)
    a.take(GIVEN[50:80])
    used(a, DEFLATE, 1)
    lender.become("a", waits="nothing", ballooned=50, lent=78)
    assert (waits_of(lender, "b"), lent(lender)) == ("deflate", 146)
    # Nothing is lent to it ahead any longer: for a lower target there is no room. As the other one
    # waits on a short host, a quarter of the floor stays to it.
    with Connection(f"{lender.folder}/.control") as it:
        it.ask("floor", bytes=10 * PAGE)
    lender.become("a", target=48)
    time.sleep(0.5)
    assert (lender.guests()["a"]["asked"], lent(lender)) == (50, 146)


def test_what_is_lent_for_an_earlier_target_is_lent_for_a_moment_alone(given):
    """A target falls, and rises again before the driver hears it. What was lent for it is free for
    others soon, also where the target falls again by a few pages, for which there is no room."""
    lender, a, b, set_budget = given
    a.figures, b.figures = {FREE: 0}, {FREE: 0}
    lender.demand("terms a priority=2")
    set_budget(146)
    lender.become("a", asked=50)
    set_budget(196)  # b is asked for all of the 60 that are missing
    lender.become("a", asked=0, lent=128)
    set_budget(146)
    lender.become("a", asked=50)
    b.take(GIVEN[:5])
    lender.become("b", waits="deflate")
    set_budget(156)
    used(b, DEFLATE, 1)
    lender.become("b", waits="nothing", ballooned=55, lent=73)
    lender.become("a", ballooned=50, lent=83, asked=45)
