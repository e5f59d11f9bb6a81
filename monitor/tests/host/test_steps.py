"""Targets that grow by steps: of a host that holds no more than its budget yet."""

import os
import time

from tenants import AVAILABLE, FREE
from test_pressed import counts, has_given
from vhost_client import PAGE, Client
from waiting import patience_from_now

# A guest of 128 pages is asked for 50, by half of its pages in a second; seconds of some less.
ALL, WANTED, PART, SOONEST = 128, 50, 2, 0.6


class Thin(Client):
    """A client whose memory the host doesn't hold yet."""

    def fill(self, file):
        os.ftruncate(file, self.pages_of_region * PAGE)


def test_a_target_grows_to_what_is_wanted_and_no_further(lend, come):
    lender = lend(1, "--floor", "0", "--period", "100", "--step", str(PART))
    come(lender, "a", {FREE: 100}, client=Thin)
    begin, found = time.monotonic(), []
    lender.set_budget(ALL - WANTED)
    while WANTED not in found:
        found.append(lender.guests()["a"]["asked"])
        assert found == sorted(found) and found[-1] <= WANTED, found
    assert time.monotonic() - begin >= SOONEST, found
    time.sleep(SOONEST)
    assert lender.guests()["a"]["asked"] == WANTED


# A target that grows by a page at a time, in a second by no more than 20.
SLOWLY = ("--strict", "--floor", "0", "--reserve", "0", "--period", "100", "--step", "1000000")


def targets_until(lender, name, wanted):
    """Returns each target that a guest is told until it is this one."""
    found, end = [lender.guests()[name]["asked"]], patience_from_now()
    while found[-1] != wanted and time.monotonic() < end:
        found.append(lender.guests()[name]["asked"])
    return set(found)


def test_pages_that_a_guest_is_to_get_are_asked_for_at_once(lend, come):
    """On 156 frames two guests have given 50 pages each; then one has 50 pages more that it uses
    for nothing, of which the other one is to get 20."""
    lender = lend(1, *SLOWLY)
    guests = [come(lender, name, {FREE: 60, AVAILABLE: 100}) for name in "ab"]
    lender.set_budget(2 * (ALL - WANTED))
    for it in guests:
        lender.become(it.name_of, asked=WANTED)
        has_given(it, WANTED)
        counts(lender, it, {FREE: 10, AVAILABLE: 50})
    guests[1].figures |= {FREE: 50}
    assert targets_until(lender, "b", 70) == {WANTED, 70}
    assert lender.guests()["a"]["target"] == 30
