"""Replays of days that a pencil can follow: guests of 100 pages, whose waits, moves and lacks were
worked out by hand."""

import pytest
from bigvasta.plan import replay as replaying
from bigvasta.plan.days import Day, Recorded, Use
from bigvasta.plan.lender import Lender, Terms
from bigvasta.plan.replay import promised_by, replay
from hypothesis import HealthCheck, given, settings, strategies


def day_of(**guests):
    """Returns a day: each guest's uses by the time, and its end; all have 100 pages."""
    recorded = [
        Recorded(name, 100, tuple(Use(float(at), used) for at, used in uses), float(end))
        for name, (*uses, end) in guests.items()
    ]
    return Day(
        tuple(recorded), min(it.uses[0].seconds for it in recorded), max(it.end for it in recorded)
    )


# Of 200 pages 50 are missing. At the start a can spare 90 and b 10, so a gives 50: 40 stay to it,
# and b keeps its 10. At 10 a has 20 to spare: all that both can spare is 30, 20 too few. b gives
# 10; a asks for the 30 that it lacks, and 50 + 90 + 30 are more than 150. At 20 b can spare 80, and
# gives up to 50: a gets its 30, and then at once the 20 that its last target lets go. On 170 pages
# a gives 30, and at 10 its target is 20: b gives 10, which a gets at once. At 20 a has given all
# that it can spare: it gets that back, and b gives 30.
TWO = day_of(a=((0, 10), (10, 80), 30), b=((0, 90), (20, 20), 30))

# Of 300 pages 100 are missing: a gives 50, b 40, c 10, so that 10 more stay to each than it uses.
# At 10 a is reset, and asks for 50; b can spare 50, and c 20: 30 too few. Both give 10: 50 + 50 +
# 80 are lent. At 20 b can spare 30, and asks for 20, for which there is room: it gets them before
# a. Now 50 are too few. At 30 c can spare 80, and its part is 75, as b's is 25: it gives 55, and a
# gets its 50. Then a can spare 100. Of what it can spare b has 5 left, and c 5 of 80, less than a
# third of its part, which is 40: a gives 60, b gets its 30, and c 35.
RESET = day_of(a=((0, 40), (10, 0), 40), b=((0, 50), (20, 70), 40), c=((0, 80), (30, 20), 40))

# b comes at 10 and asks for its 100; a can spare 20. At 30 a can spare 60, and gives up to 50. Then
# b can spare 50, and a has 10 left of its part, 30: b gives 20, and a gets them.
NEWCOMER = day_of(a=((0, 80), (30, 40), 50), b=((10, 50), 50))

# The same, but that a continues as it was: b never starts.
REFUSED = day_of(a=((0, 80), 50), b=((10, 50), 50))

# a gives 50. At 10 c asks for its 100: a can spare 90 and b 40, 20 too few, and 10 + 60 are lent.
# At 20 a can spare 40, and asks for 50, which it gets before c: 60 + 60 + 100 are more than 150.
OVERTAKEN = day_of(a=((0, 10), (20, 60), 30), b=((0, 60), 30), c=((10, 50), 30))

# a gives 50. At 10 it has 5 to spare, b 40: 5 too few; b gives 40, a asks for 45. At 20 b goes: a
# gets them, and takes its last 5.
LEAVING = day_of(a=((0, 10), (10, 95), 30), b=((0, 60), 20))

# a gives all 50; b goes, and then nothing is missing: a gets them back.
ALONE = day_of(a=((0, 10), 30), b=((0, 100), 20))

# With a floor of 16 a can spare 64 and b 24: a gives 45 and b 5, so that 19 stay to each. At 10 and
# 20 a can spare 50 and 47, of which its part is 12 and 10: what its target leaves, with 2 (an
# eighth of the floor), is 7 and 4, no less than 35 percent of that. At 30 it can spare 46, and has
# 3 of 10: it gives its part, 36, and b 14.
SLACK = day_of(a=((0, 20), (10, 34), (20, 37), (30, 38), 40), b=((0, 60), 40))

# The same with c, which comes at 15 where there is no room for its 10: 60 are missing, of which a's
# part is 43 and b's 17. a stays with its 45, as at 10, and b gives 10. Where all was decided again,
# a would get 2, and b give 12.
NO_ROOM = Day(
    (
        Recorded("a", 100, (Use(0.0, 20), Use(10.0, 34)), 40.0),
        Recorded("b", 100, (Use(0.0, 60),), 40.0),
        Recorded("c", 10, (Use(15.0, 10),), 40.0),
    ),
    0.0,
    40.0,
)

# a and b use 40 each, and a has 50 as page cache: b gives the 50 that are missing. At 10 b can
# spare 20: a gives the 10 that are free, and 20 of its page cache.
CACHED = Day(
    (
        Recorded("a", 100, (Use(0.0, 40, 50),), 20.0),
        Recorded("b", 100, (Use(0.0, 40, 0), Use(10.0, 80, 0)), 20.0),
    ),
    0.0,
    20.0,
)

# a and b can spare 60 each, and give 25. At 10 a is pressed: it gives no more than it has given,
# and gets its part of that, 17 of 25; b gives 17. Then a gives no more than 8, and gets all of
# them. At 15 each gives 25.
PRESSED = Day(
    (
        Recorded("a", 100, (Use(0.0, 40), Use(10.0, 40, None, True), Use(15.0, 40)), 20.0),
        Recorded("b", 100, (Use(0.0, 40),), 20.0),
    ),
    0.0,
    20.0,
)

# Of 300 pages on 130 a gives 90 and c 80: 10, 100 and 20 are lent. At 10 c goes, which leaves room
# for 20 of the 70 that a lacks: those it takes at once, and asks for 50, which b can't spare.
IN_PARTS = day_of(a=((0, 10), (10, 80), 30), b=((0, 100), 30), c=((0, 20), 10))

# Of 200 pages 100 are missing from the first moment on: a and b give the 10 that each can spare.
SCARCE = day_of(a=((0, 90), 20), b=((0, 90), 20))

# All is lent to a guest that is reset: nothing waits. On 99 pages it gives one that it can spare,
# and then waits for that: there is no room.
FULL = day_of(a=((0, 50), (10, 0), 20))

# What is expected: waits of each ask, seconds waited and present, how often short, for how long, by
# how much, pages moved.
WORKED_OUT = {
    "two guests": (TWO, Terms(150), (10.0, 0.0), 10.0, 60.0, 1, 10.0, 20, 150),
    "two guests on all that they need at once": (
        TWO,
        Terms(170),
        (0.0, 0.0),
        0.0,
        60.0,
        0,
        0.0,
        0,
        90,
    ),
    "a deflate comes before a reset": (
        RESET,
        Terms(200),
        (0.0, 20.0, 0.0, 0.0),
        20.0,
        120.0,
        1,
        20.0,
        50,
        370,
    ),
    "a newcomer waits": (NEWCOMER, Terms(150), (20.0, 0.0), 20.0, 90.0, 1, 20.0, 30, 90),
    "a deflate comes before a newcomer": (
        OVERTAKEN,
        Terms(150),
        (0.0, 20.0),
        20.0,
        80.0,
        1,
        20.0,
        70,
        180,
    ),
    "a budget that is short": (REFUSED, Terms(150), (40.0,), 40.0, 90.0, 1, 40.0, 30, 20),
    "room by a guest that goes": (LEAVING, Terms(150), (10.0, 0.0), 10.0, 50.0, 1, 10.0, 5, 140),
    "nothing is missing once a guest has gone": (
        ALONE,
        Terms(150),
        (0.0,),
        0.0,
        50.0,
        0,
        0.0,
        0,
        100,
    ),
    "a floor that lacks a little": (SLACK, Terms(150, 16), (0.0,), 0.0, 80.0, 0, 0.0, 0, 68),
    "a newcomer without room changes no target that may stay": (
        NO_ROOM,
        Terms(150, 16),
        (0.0,),
        0.0,
        105.0,
        0,
        0.0,
        0,
        60,
    ),
    "page cache after what is free": (CACHED, Terms(150), (0.0,), 0.0, 40.0, 0, 0.0, 0, 110),
    "a guest that is pressed": (PRESSED, Terms(150), (0.0, 0.0, 0.0), 0.0, 40.0, 0, 0.0, 0, 150),
    "what there is room for comes first": (
        IN_PARTS,
        Terms(130),
        (0.0, 20.0),
        20.0,
        70.0,
        1,
        20.0,
        50,
        190,
    ),
    "short from the first moment on": (SCARCE, Terms(100), (), 0.0, 40.0, 1, 20.0, 80, 20),
    "a reset that has all": (FULL, Terms(100), (), 0.0, 20.0, 0, 0.0, 0, 0),
    "a reset that lacks a page": (FULL, Terms(99), (10.0,), 10.0, 20.0, 1, 10.0, 1, 1),
}


@pytest.mark.parametrize("name", WORKED_OUT)
def test_worked_out(library, name):
    day, terms, *expected = WORKED_OUT[name]
    it = replay(library, day, terms)
    assert [it.waits, it.waited, it.present, it.shorts, it.short, it.lacked, it.moved] == expected


def test_who_waits_longest_and_what_is_promised(library):
    it = replay(library, RESET, Terms(200))
    assert (it.worst_guest, it.promised, it.guests, it.share(), it.wait_a_day()) == (
        "a",
        300,
        3,
        1 / 6,
        14400.0,
    )
    assert promised_by(day_of(a=((0, 1), 10), b=((10, 1), 20), c=((15, 1), 20))) == 200


def test_all_is_decided_again_as_a_guest_comes_or_goes(library):
    """Of one page: at the start, at 10, at 20 and at 30, though nothing is missing."""
    day = day_of(a=((0, 50), 30))
    passing = Recorded("b", 1, (Use(10.0, 1),), 20.0)
    found = replay(library, day._replace(guests=(*day.guests, passing)), Terms(200))
    assert (found.decisions, found.moved, found.waits) == (4, 0, (0.0,))


def test_quantiles_by_nearest_rank(library):
    it = replay(library, FULL, Terms(100))
    assert [it.quantile(share) for share in (0.5, 1)] == [0.0, 0.0]
    for waits, half, most, worst in (
        ((4.0,), 4, 4, 4),
        ((1.0, 9.0), 1, 9, 9),
        (tuple(map(float, range(200, 0, -1))), 100, 198, 200),
    ):
        it = it._replace(waits=waits)
        assert (it.quantile(0.5), it.quantile(0.99), it.quantile(1)) == (half, most, worst)


def random_day(numbers):
    """Returns a small day of up to six guests, some of whom come later, go earlier, or are
    reset."""
    guests = []
    for number in range(numbers.randint(1, 6)):
        pages = numbers.randint(1, 100)
        start, end = sorted(numbers.sample(range(61), 2)) if numbers.random() < 0.4 else (0, 60)
        times = sorted(
            {start, *(numbers.randint(start, end - 1) for _ in range(numbers.randint(0, 8)))}
        )
        uses = [Use(float(at), numbers.choice((0, numbers.randint(0, pages)))) for at in times]
        guests.append(Recorded(f"g{number}", pages, tuple(uses), float(end)))
    guests.sort(key=lambda it: it.uses[0].seconds)
    return Day(tuple(guests), guests[0].uses[0].seconds, max(it.end for it in guests))


class Watched(Lender):
    """A lender whose seats are looked at after each moment."""

    def settle(self):
        """What is lent never passes the budget once it is within it; each guest has what it uses,
        and what is lent to it."""
        before = self.seats.owed()
        super().settle()
        assert self.seats.owed() <= max(self.terms.frames, before)
        for number, (seat, report) in enumerate(zip(self.seats.seats, self.seats.reports)):
            has = seat.pages - report.ballooned
            assert self.seats.lent(number) == has
            assert report.held or not self.runs[number] or report.ballooned <= self.unused[number]
        waits = [it.held != 0 for it in self.seats.reports]
        assert waits == [it is not None for it in self.since]
        # Who can be served is served: the guests that can spare give all that lacks.
        assert self.missing > 0 or not any(waits)


@pytest.mark.timeout(1200)  # a busy machine takes long for all
@settings(
    max_examples=1000,
    deadline=None,
    derandomize=True,
    database=None,
    suppress_health_check=[HealthCheck.too_slow, HealthCheck.function_scoped_fixture],
)
@given(numbers=strategies.randoms(use_true_random=False))
def test_event_by_event_as_moment_by_moment(library, monkeypatch, numbers):
    monkeypatch.setattr(replaying, "Lender", Watched)
    day = random_day(numbers)
    frames = numbers.randint(1, promised_by(day) + 1)
    terms = Terms(
        frames,
        numbers.choice((0, numbers.randint(0, 20))),
        overdraft=numbers.choice((0, numbers.randint(0, min(frames, 20)))),
        patience=numbers.randint(1, 30),
    )
    events = replay(library, day, terms)
    moments = replay(library, day, terms, [it / 2 for it in range(121)])
    assert events._replace(decisions=0) == moments._replace(decisions=0), (day, terms)
    assert events.waited == sum(events.waits)
