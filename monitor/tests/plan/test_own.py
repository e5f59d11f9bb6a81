"""How a recorded host did itself, beside the plan of its day: what it promised, and how long its
guests waited; by days that a pencil can follow."""

import pytest
from bigvasta.plan import lending
from test_checking import recording, rows, series
from test_matrix import answer

# Looks are a second apart, and a guest has 100 pages. Each day's budgets and guests; and how many
# pages were promised, of how many, and the guests' seconds: those for which they waited, and all.
AT_REST, ASKS, ASKS_FOR_ONE = "50/0/0", "50/10/0", "50/1/0"
DAYS = {
    "nobody waits": ([150] * 3, {"a": [AT_REST] * 3, "b": [AT_REST] * 3}, (200, 150, 0, 4)),
    "one of two waits": (
        [150] * 5,
        {"a": [AT_REST, ASKS, *[AT_REST] * 3], "b": [AT_REST] * 5},
        (200, 150, 1, 8),
    ),
    "one waits for a page": ([150] * 3, {"a": [AT_REST, ASKS_FOR_ONE, AT_REST]}, (100, 150, 1, 2)),
    "both wait": ([80] * 3, {"a": [ASKS] * 3, "b": [AT_REST, *[ASKS] * 2]}, (200, 80, 3, 4)),
    "one waits at the last look": ([100] * 2, {"a": [AT_REST, ASKS]}, (100, 100, 0, 1)),
    "one goes": ([150] * 4, {"a": [AT_REST] * 4, "b": [AT_REST, ASKS]}, (200, 150, 1, 5)),
}

# Days of which that isn't known.
UNKNOWN = {
    "one look": [150],
    "a budget that falls": [150, 150, 149],
    "a budget that rises": [149, 150, 150],
    "a budget that is another one for a while": [150, 151, 150],
}


@pytest.fixture
def own_of(tmp_path):
    """Returns how a host of these series did itself."""

    def read(its):
        path = tmp_path / "day.json"
        path.write_text(answer(its), encoding="utf-8")
        return lending.own_of(str(path))

    return read


@pytest.mark.parametrize("day", DAYS)
def test_what_a_host_promised_and_how_long_was_waited(own_of, day):
    budgets, guests, (promised, frames, waited, present) = DAYS[day]
    own = own_of(recording(budgets, **{name: rows(" ".join(it)) for name, it in guests.items()}))
    assert own == pytest.approx((frames, promised / frames, waited / present * 24 * 60 * 60))


@pytest.mark.parametrize("day", UNKNOWN)
def test_days_of_which_nothing_is_known(own_of, day):
    budgets = UNKNOWN[day]
    guest = rows(" ".join([AT_REST] * len(budgets)))
    assert own_of(recording(budgets, a=guest)) is None


def test_a_recording_without_a_budget_or_without_guests(own_of):
    guest = recording([150] * 2, a=rows(" ".join([AT_REST] * 2)))
    assert own_of(guest) is not None
    assert own_of(guest[1:]) is None
    assert own_of([series("bigvasta_budget_bytes", "", [4096] * 2)]) is None
