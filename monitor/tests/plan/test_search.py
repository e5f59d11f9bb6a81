"""What is tried for the tightest that serves, where the smallest that does is 170 and a guest waits
10 seconds in a day below it: by a pencil."""

from typing import NamedTuple

import pytest
from bigvasta.plan.search import search, spread, tightest

SERVES, WAIT = 170, 10


class Tried(NamedTuple):
    """What was tried."""

    number: int
    above = 0

    def wait_a_day(self):
        """Returns the seconds that a guest waits in a day."""
        return 0 if self.number >= SERVES else WAIT


# The ends, the tighter first, and the steps; the seconds that a guest may wait; all that are tried,
# once more between the last that doesn't serve and the first that does; and the tightest that does.
SEARCHES = (
    ((150, 200), 2, 9, (150, 162, 175, 200), 175),
    ((150, 200), 3, 9, (150, 166, 171, 177, 183, 200), 171),
    ((160, 180), 3, 9, (160, 166, 168, 170, 173, 180), 170),
    ((150, 200), 5, 9, (150, 160, 162, 164, 166, 168, 170, 180, 190, 200), 170),
    ((170, 180), 1, 9, (170, 180), 170),
    ((170, 170), 1, 9, (170,), 170),
    ((150, 160), 2, 9, (150, 155, 160), None),
    ((150, 160), 2, 10, (150, 155, 160), 150),
    # Promises, of which the tighter is the larger one.
    ((200, 100), 2, 10, (200, 150, 100), 200),
)


@pytest.mark.parametrize("ends, steps, limit, numbers, best", SEARCHES)
def test_all_that_are_tried(ends, steps, limit, numbers, best):
    found = search(lambda its: map(Tried, its), ends, steps, limit)
    assert [it.number for it in found.answers] == [*numbers]
    assert found.best == (None if best is None else Tried(best))


def test_the_smallest_has_none_above_it_that_fails():
    class Waited:
        def __init__(self, seconds, above):
            self.seconds, self.above = seconds, above

        def wait_a_day(self):
            return self.seconds

    for waits, number in (((9, 0, 9, 0, 0), 3), ((0, 0), 0), ((0, 9), None), ((5, 4), 0)):
        assert tightest([Waited(it, 0) for it in waits], 5) == number
        assert tightest([Waited(0, it > 5) for it in waits], 5) == number
    assert (spread(10, 20, 2), spread(7, 7, 3), spread(1, 3, 9)) == ([10, 15, 20], [7], [1, 2, 3])
