"""A strict host that stays short: one guest at a time proceeds. Guests have 128 pages."""

import time

from tenants import FREE, eventually
from test_strict import GIVEN, STRICT
from vhost_client import DEFLATE

# Seconds in which nothing moves, and the lender prefers the guest that waits first, and half more.
STANDS = 1.5


def granted(guests):
    """Returns how many deflates each guest was given back."""
    return [it.client.used(DEFLATE)[0] for it in guests]


def test_one_guest_proceeds_until_it_asks_no_more(lend, come):
    """Two have given 50 pages each, and want them back by 10 while nobody can give any."""
    lender = lend(1, *STRICT)
    a, _ = guests = [come(lender, name, {FREE: 50}) for name in "ab"]
    lender.set_budget(156)
    for name, guest in zip("ab", guests):
        lender.become(name, asked=50)
        guest.give(GIVEN[:50])
        lender.become(name, ballooned=50, lent=78)
        guest.figures[FREE] = 0
    for name, guest in zip("ab", guests):
        guest.take(GIVEN[:10])
        lender.become(name, waits="deflate")
    time.sleep(STANDS)
    for count in (1, 2, 3):
        lender.set_budget(156 + 10 * count)
        eventually(lambda: sum(granted(guests)) == count)
        assert granted(guests) == [count, 0]
        a.take(GIVEN[10 * count : 10 * count + 10])
        lender.become("a", waits="deflate")
    lender.set_budget(206)
    eventually(lambda: granted(guests) == [4, 1])


# A floor of 40 pages.
FLOOR = ("--floor", "160K", "--reserve", "0", "--period", "100", "--step", "0", "--strict")


def test_who_does_not_wait_gives_all_but_a_quarter_of_the_floor(lend, come):
    """Once one waits and all is given that leaves each the floor."""
    lender = lend(1, *FLOOR)
    a, b = guests = [come(lender, name, {FREE: free}) for name, free in (("a", 90), ("b", 100))]
    lender.set_budget(256 - 50 - 60)
    for name, guest, count in zip("ab", guests, (50, 60)):
        lender.become(name, asked=count)
        guest.give(GIVEN[:count])
        guest.figures[FREE] = 40
        lender.become(name, ballooned=count, lent=128 - count, free=40)
    a.take(GIVEN[:30])
    lender.become("b", asked=60 + 40 - 10)
    b.give(GIVEN[60:90])
    eventually(lambda: granted(guests) == [1, 0])
