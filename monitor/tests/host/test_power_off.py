"""Guests that power off on a strict host that is full, and none can give: each gives its balloon
back in requests of 256 pages, as Linux does where its driver is removed, and ends. Played guests of
1024 pages, of which 512 are in the balloon, as many as the host may overdraw."""

import itertools

import pytest
from played import Played
from tenants import eventually
from test_strict import STRICT

ALL, GIVEN, REQUEST = 1024, 512, 256
NAMES = "abcd"

# The frames of a host that is full of four such guests, and of a MiB.
BUDGET, MIB = len(NAMES) * (ALL - GIVEN), 256


class Off(Played):
    """A guest that may power off."""

    def powers_off(self):
        """Holds its next request, or leaves after the last one; whether it has left."""
        if self.its["held_pages"] and self.is_granted():
            self.report(ballooned=self.its["ballooned"] - self.its["held_pages"], held_pages=0)
        if self.its["held_pages"] == 0 and self.its["ballooned"] > 0:
            self.deflates(min(REQUEST, self.its["ballooned"]))
        if self.its["ballooned"] == 0:
            self.leave()
            return True
        return False


SUBSETS = [it for count in range(1, 5) for it in itertools.combinations(NAMES, count)]


@pytest.fixture
def full(lend):
    """A strict host that is full of four guests, each of which has given half of its memory."""
    lender = lend(BUDGET // MIB, *STRICT, "--overdraft", str(GIVEN))
    guests = {
        name: Off(
            lender,
            name,
            hears=True,
            pages=ALL,
            ballooned=GIVEN,
            target=GIVEN,
            obeyed=GIVEN + 1,
            held_pages=0,
        )
        for name in NAMES
    }
    yield lender, guests
    for it in guests.values():
        if it.channel.fileno() >= 0:
            it.leave()


@pytest.mark.parametrize("off", SUBSETS, ids="".join)
def test_each_that_powers_off_ends(full, off):
    """None waits for good, what is above the budget comes back, and the others stay."""
    lender, guests = full
    assert lender.counters()["lent"] == BUDGET
    left = dict.fromkeys(off, False)

    def go_on():
        for name, gone in left.items():
            left[name] = gone or guests[name].powers_off()
        assert lender.counters()["lent"] <= BUDGET + GIVEN
        return all(left.values())

    eventually(go_on, lambda: (left, lender.guests()))
    for name in NAMES:
        lender.become(name, here=int(name not in off))
    assert lender.counters()["lent"] <= BUDGET
