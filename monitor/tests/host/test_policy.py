"""What guests are asked for, by the figures that they tell and their terms. Each is of 128 pages;
numbers are worked out by hand."""

import time

import pytest
from tenants import AVAILABLE, FREE, PAGES, PAGES_OF_ALL, Guest, eventually
from test_strict import GIVEN

# A lender that looks often, without a floor or a reserve, and asks for all at once.
QUICK = ("--floor", "0", "--reserve", "0", "--period", "100", "--step", "0")


def targets(lender):
    """Returns the targets of all guests, by name."""
    return {name: it["target"] for name, it in lender.guests().items()}


def become(lender, wanted):
    """Waits until the targets are these."""
    eventually(
        lambda: targets(lender) == wanted,
        lambda: f"the targets are {targets(lender)}, and should be {wanted}",
    )


# What a guest tells, and what it can spare of its 128 pages.
FIGURES = (
    ({FREE: 12, AVAILABLE: 100}, 100),  # page cache can be let go
    ({FREE: 60, AVAILABLE: 40}, 40),  # Linux keeps some free pages for itself
    ({FREE: 70}, 70),
    ({AVAILABLE: 30}, 30),
    ({FREE: 3, AVAILABLE: 1 << 20}, 128),  # more than it has
)


@pytest.mark.parametrize("figures, spare", FIGURES)
def test_what_a_guest_can_spare_goes_by_available_memory(lend, come, figures, spare):
    lender = lend(1, *QUICK)
    come(lender, "a", figures)
    lender.become("a", spare=spare)


def test_a_statistic_that_is_told_no_longer_does_not_count(lend, come):
    lender = lend(1, *QUICK)
    guest = come(lender, "a", {FREE: 0})
    for figures, spare in FIGURES:
        guest.figures = figures
        lender.become("a", spare=spare)
    lender.set_budget(78)
    for figures, tier in (({FREE: 10, AVAILABLE: 100}, "cache"), ({AVAILABLE: 100}, "unused")):
        guest.figures = figures
        eventually(lambda wanted=tier: lender.status()["host"]["tier"] == wanted)


def takes_ten_back(lender, other):
    """Two guests have given all that they can, 50 pages each: `b` takes ten back, and is named."""
    become(lender, {"a": 50, "b": 50})
    lender.decisions()
    other.take(GIVEN[:10])
    become(lender, {"a": 50, "b": 40})
    said, _ = lender.decisions()[0]
    assert (said["why"], said["who"], said["short"]) == ("spare", "b", 10)


def test_who_is_asked_for_more_than_it_can_spare_is_named(lend, come):
    """Not who is asked for all that it can: both have given that, and `b` takes ten of it back."""
    lender = lend(1, *QUICK)
    guests = [come(lender, name, {FREE: 50, AVAILABLE: 50}) for name in "ab"]
    lender.set_budget(156)
    become(lender, {"a": 50, "b": 50})
    for it in guests:
        it.answers = False
        it.give(GIVEN[:50])
        lender.become(it.name_of, ballooned=50)
        it.figures |= {FREE: 0, AVAILABLE: 0}
        it.answers = True
    takes_ten_back(lender, guests[1])


def test_page_cache_is_taken(lend, come):
    # Three guests of 128 pages, with 110 in their page cache and 4 free, on 256: as the third
    # comes, the two others give half of what is missing each. Once it is heard, its part would be
    # 43, but nobody has less than a third of what would be left to each.
    lender = lend(1, *QUICK)
    for name in ("a", "b"):
        come(lender, name, {FREE: 4, AVAILABLE: 110})
    come(lender, "c", {FREE: 4, AVAILABLE: 110})
    become(lender, {"a": 64, "b": 64, "c": 0})
    assert lender.counters()["short"] == 0


def test_tiers_of_a_guest(lend, come):
    # Of its 128 pages 4 are free and 108 are page cache, of which 12, a tenth, are its reserve.
    lender = lend(1, *QUICK, "--reserve", "10")
    come(lender, "a", {FREE: 4, AVAILABLE: 112})
    for budget, target, tier in (
        (128, 0, "none"),
        (124, 4, "unused"),
        (123, 5, "cache"),
        (28, 100, "cache"),
        (27, 101, "reserve"),
        (16, 112, "reserve"),
        (15, 112, "short"),
    ):
        lender.set_budget(budget)
        become(lender, {"a": target})
        assert lender.counters()["tier"] == tier
        decision, _ = lender.decisions()[-1]
        assert (decision["tier"], decision["short"]) == (tier, int(tier == "short"))


def test_equal_guests_are_asked_for_equal_parts(lend, come):
    # A guest that reads 60 pages again and again, beside two idle ones with 90 free: 128 of 384
    # pages are missing. It keeps all its page cache.
    lender = lend(1, *QUICK)
    for name in "ab":
        come(lender, name, {FREE: 90, AVAILABLE: 100})
    come(lender, "c", {FREE: 2, AVAILABLE: 62})
    lender.demand("budget 1")
    become(lender, {"a": 64, "b": 64, "c": 0})
    assert lender.counters()["tier"] == "unused"


# The terms of a, b and c, who use 28 of 128 pages each, on a budget of 256: 128 pages are missing,
# and 172 are left to them.
TERMS = (
    (("", "", ""), {"a": 43, "b": 43, "c": 43}),  # 57 stay to each
    (("priority=2", "priority=1", ""), {"a": 0, "b": 28, "c": 100}),
    (("priority=1", "priority=1", "priority=1"), {"a": 43, "b": 43, "c": 43}),
    (("weight=2", "", ""), {"a": 14, "b": 57, "c": 57}),  # 86 and 43 stay
    (("weight=3", "weight=2", ""), {"a": 14, "b": 43, "c": 72}),  # 86, 57 and 28 stay
    (("weight=9", "priority=1", ""), {"a": 35, "b": 0, "c": 93}),  # 65, all and 7 stay
    (("least=1", "", ""), {"a": 0, "b": 64, "c": 64}),  # 256 pages: all that it has
    (("most=0", "", ""), {"a": 100, "b": 14, "c": 14}),
    (("", "", "most=0"), {"a": 14, "b": 14, "c": 100}),
    (("most=0", "most=0", "most=0"), {"a": 100, "b": 100, "c": 100}),
    (("least=1 most=1", "priority=1", "priority=2"), {"a": 0, "b": 100, "c": 28}),
)


@pytest.mark.parametrize("terms, wanted", TERMS)
def test_terms_of_guests(lend, come, terms, wanted):
    lender = lend(2, *QUICK)
    for name, its in zip("abc", terms):
        come(lender, name, {FREE: 100}, its)
    lender.demand("budget 1")
    become(lender, wanted)


def test_terms_that_change(lend, come):
    lender = lend(1, *QUICK)
    for name in "abc":
        come(lender, name, {FREE: 100})
    lender.demand("budget 1")
    become(lender, {"a": 43, "b": 43, "c": 43})
    assert lender.demand("terms a priority=1") == "ok"
    become(lender, {"a": 0, "b": 64, "c": 64})
    assert lender.demand("terms a priority=0 most=0") == "ok"
    become(lender, {"a": 100, "b": 14, "c": 14})
    seen = lender.guests()["a"]
    assert (seen["least"], seen["most"], seen["priority"]) == (0, 0, 0)


NO_TERMS = (
    "least=",
    "least=x",
    "most=-1",
    "priority=4294967296",
    "weight=0",
    "weight=x",
    "weight=4294967296",
    "strict=2",
    "frames=1",
    "least=1  most=2",
    "least=16777216",
    "=",
)


@pytest.mark.parametrize("words", NO_TERMS)
def test_words_that_are_no_terms(lend, words):
    lender = lend(5)
    lender.demand("add a least=1 most=2 priority=3")
    for line in (f"add b {words}", f"terms a {words}"):
        assert lender.ask(line).startswith("error: "), line
    assert list(lender.guests()) == ["a"]
    seen = lender.guests()["a"]
    assert (seen["least"], seen["most"], seen["priority"]) == (256, 512, 3)


def test_least_above_most(lend):
    lender = lend(5)
    assert lender.ask("add a least=3 most=2") == "error: a: its least is more than its most"
    lender.demand("add a least=1 most=2")
    assert lender.ask("terms a least=3") == "error: its least is more than its most"
    assert lender.ask("terms b least=3") == "error: no guest has that name"


@pytest.mark.parametrize("wanted", (40, 1))
def test_what_an_operator_wants_is_asked_of_a_silent_guest(lend, come, wanted):
    # With 64 of its 128 pages given up and back, it holds 64; with 40 in its balloon it counts for
    # 104.
    lender = lend(1, *QUICK)
    a, pages = come(lender, "a", {FREE: 0}), list(range(PAGES, PAGES + 64))
    a.give(pages)
    lender.become("a", ballooned=64)
    a.take(pages[wanted:])
    lender.become("a", ballooned=wanted, held_kib=4 * 64)
    lender.demand(f"a target {wanted}")
    a.answers = False
    lender.become("a", answers=0)
    looks = lender.counters()["looks"]
    eventually(lambda: lender.counters()["looks"] > looks + 3)
    assert targets(lender) == {"a": wanted}
    lender.set_budget(255)  # then all is decided again, and nothing is missing
    become(lender, {"a": 0})


def stay(lender, wanted):
    """Demands that the targets are these, and stay so for some looks."""
    become(lender, wanted)
    looks = lender.counters()["looks"]
    eventually(lambda: lender.counters()["looks"] > looks + 3)
    assert targets(lender) == wanted


# A floor of 16 pages, of which an eighth may lack; what a guest can spare with 50 of its 128 pages
# in its balloon, on a budget that it can't come down to, and its target then.
FLOOR, GAVE = 16, 50
LACKING = ((52, 50), (48, 50), (53, 53), (51, 53), (50, 50), (47, 47))


def test_an_eighth_of_the_floor_may_lack(lend, come):
    lender = lend(1, *QUICK, "--floor", f"{4 * FLOOR}K")
    guest = come(lender, "a", {FREE: FLOOR + GAVE})
    lender.set_budget(28)
    become(lender, {"a": GAVE})
    guest.give_free(GIVEN[:GAVE])
    lender.become("a", ballooned=GAVE, spare=GAVE)
    for spare, target in LACKING:
        guest.figures[FREE] = spare - GAVE + FLOOR
        lender.become("a", spare=spare)
        stay(lender, {"a": target})


def test_who_has_35_percent_of_its_part_keeps_its_target(lend, come):
    """Of 40 pages that are missing each part is of the other one, which can spare 120: `a` has 22
    of 62, and then 21 of 61."""
    lender = lend(1, *QUICK)
    a, b = (come(lender, name, {FREE: free}) for name, free in (("a", 40), ("b", 0)))
    lender.set_budget(216)
    stay(lender, {"a": 40, "b": 0})
    a.figures[FREE] = 62
    lender.become("a", spare=62)
    b.figures[FREE] = 120
    lender.become("b", spare=120)
    stay(lender, {"a": 40, "b": 0})
    a.figures[FREE] = 61
    stay(lender, {"a": 0, "b": 40})


def test_a_silent_guest_counts_for_what_it_holds(lend, come):
    lender = lend(1, *QUICK)
    a, pages = come(lender, "a", {FREE: 0}), [
        *range(PAGES, PAGES + 64),
        *range(PAGES_OF_ALL + 20, PAGES_OF_ALL + 64),
    ]
    a.give(pages)
    lender.become("a", ballooned=108)
    a.take(pages)
    lender.become("a", ballooned=0, held_kib=4 * 20)
    a.answers = False
    lender.become("a", answers=0)
    # It holds 20 pages of its 128. So there is room on 256 pages for two guests that need 128 each,
    # of whom one can spare 20.
    come(lender, "b", {FREE: 20})
    come(lender, "c", {FREE: 0})
    become(lender, {"a": 0, "b": 20, "c": 0})
    assert lender.counters()["short"] == 0
    # As it takes more, the others make up for it, as far as they can.
    a.fill()
    eventually(lambda: lender.counters()["short"] == 108, lender.counters)


def test_targets_grow_by_steps(lend, come):
    lender = lend(64, "--floor", "0", "--period", "50", "--step", "4")
    come(lender, "a", {FREE: 128})
    lender.demand("terms a most=0")
    begin, seen = time.monotonic(), []
    while not seen or seen[-1][1] < 128:
        seen.append((time.monotonic() - begin, lender.guests()["a"]["asked"]))
        assert seen[-1][0] < 20
    # 32 pages in a second, in more than 20 steps.
    assert all(asked <= 32 * seconds + 16 for seconds, asked in seen), seen
    assert len({asked for _, asked in seen}) > 20
    # It gets pages back at once.
    lender.demand("terms a most=64")
    eventually(lambda: lender.guests()["a"]["asked"] == 0)


def test_steps_do_not_bind_above_the_budget(lend, come):
    lender = lend(64, "--floor", "0", "--period", "50", "--step", "1000")
    guest = come(lender, "a", {FREE: 128})
    guest.fill()
    lender.become("a", held_kib=512)
    lender.demand("budget 0")
    begin = time.monotonic()
    eventually(lambda: lender.guests()["a"]["asked"] == 128)
    assert time.monotonic() - begin < 3


def test_a_guest_that_takes_pages_has_none_free_before_it_tells_statistics(lend):
    """It is known by that, and counts with all its memory."""
    lender = lend(1, *QUICK[:-4], "--period", "6000", "--step", "0")
    lender.demand("add a")
    guest = Guest(lender, "a", {})
    lender.become("a", ready=1, answers=0)
    guest.answers = False
    lender.demand("a target 20"), lender.become("a", asked=20)
    guest.give(GIVEN[:20])
    lender.become("a", ballooned=20, answers=0)
    guest.take(GIVEN[:8])
    lender.become("a", ballooned=12, taken=8, answers=1, spare=12)
    lender.set_budget(100)
    _, shares = eventually(lender.decisions)[-1]
    assert (shares["a"]["pages"], shares["a"]["spare"], shares["a"]["by"]) == (128, 12, "pause")
    guest.leave()


def test_a_guest_that_took_pages_itself_is_left_alone_for_a_while(lend, come):
    lender = lend(1, *QUICK)
    guest = come(lender, "a", {FREE: 100})
    lender.demand("budget 0")
    become(lender, {"a": 100})
    guest.give(list(range(PAGES, PAGES + 20)))
    lender.become("a", ballooned=20)
    begin = time.monotonic()
    guest.take(list(range(PAGES, PAGES + 8)))
    lender.become("a", ballooned=12, taken=8)
    eventually(lambda: lender.guests()["a"]["spare"] == 12, lambda: lender.guests())
    eventually(lambda: lender.guests()["a"]["spare"] > 12, lambda: lender.guests())
    assert time.monotonic() - begin > 1.5
