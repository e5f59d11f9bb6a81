"""A host that is strict: what guests want waits until it is lent, and what is lent never passes the
budget. Guests have 128 pages."""

import random
import subprocess
import threading
import time

import pytest
from bigvasta.connection import Connection
from tenants import FREE, PAGES, PAGES_OF_ALL, eventually, process_of
from vhost_client import ADD_MEM_REG, DEFLATE, OFFERED, PAGE, REM_MEM_REG, Client
from waiting import PATIENCE, goes_on_sleeping

STRICT = ("--floor", "0", "--reserve", "0", "--period", "100", "--step", "0", "--strict")

# Pages that a driver may give: those after its rings, and the second region.
GIVEN = [*range(PAGES_OF_ALL + 20, PAGES_OF_ALL + 64), *range(PAGES, PAGES + 64)]


def lent(lender):
    """Returns how many frames are lent to all, which are no more than the budget."""
    counters = lender.counters()
    assert counters["lent"] <= counters["frames"], counters
    return counters["lent"]


class Later(threading.Thread):
    """Does something that may have to wait."""

    def __init__(self, act):
        super().__init__(daemon=True)
        self.act, self.fault = act, None
        self.start()

    def run(self):
        try:
            self.act()
        except Exception as fault:
            self.fault = fault

    def waits(self, seconds=0.5):
        """Whether it isn't done yet, after these seconds."""
        self.join(seconds)
        return self.is_alive()

    def ends(self):
        """Waits until it is done."""
        self.join(PATIENCE)
        assert not self.is_alive() and self.fault is None, self.fault


def waits_of(lender, name):
    """Returns for what a guest waits."""
    return lender.guests()[name]["waits"]


def used(guest, number, count):
    """Waits until this number of requests of a queue were given back."""
    eventually(
        lambda: guest.client.used(number)[0] >= count,
        lambda: f"{guest.client.used(number)[0]} of {count} are used",
    )


@pytest.fixture
def two(lend, come):
    """A host with 256 frames, which two guests have."""
    lender = lend(1, *STRICT)
    guests = [come(lender, it, {FREE: 100}) for it in "ab"]
    assert lent(lender) == 256
    return lender, guests


def test_who_comes_waits_for_room(two, lend):
    lender, (a, b) = two
    client = Client(lender.add("c"), lambda: "")
    client.negotiate()
    comes = Later(client.hand_over_memory)
    assert comes.waits()
    assert (waits_of(lender, "c"), lent(lender)) == ("room", 256)
    eventually(lambda: [lender.guests()[it]["target"] for it in "ab"] == [64, 64])
    a.give(GIVEN[:64])
    assert comes.waits()
    assert lent(lender) == 192
    b.give(GIVEN[:64])
    comes.ends()
    lender.become("c", pages=128, lent=128, waits="nothing")
    assert lent(lender) == 256
    client.leave()


def test_a_deflate_waits_for_its_grant(two):
    lender, (a, b) = two
    lender.demand("budget 0")
    a.give(GIVEN[:50])
    lender.become("a", ballooned=50, lent=78)
    a.take(GIVEN[:10])
    lender.become("a", waits="deflate", ballooned=50, lent=78)
    time.sleep(0.3)
    assert a.client.used(DEFLATE)[0] == 0
    # As there is room again, it is given back.
    lender.demand("budget 1")
    used(a, DEFLATE, 1)
    assert lender.counters()["grants"] == 3
    # It is asked for none any longer: all that is left is lent ahead.
    lender.become("a", waits="nothing", ballooned=40, asked=0, lent=128)


def test_a_deflate_of_no_page_needs_no_grant(two):
    """All of its numbers are past the end of memory: they are skipped, and nothing is asked for.
    The next deflate is held as any other."""
    lender, (a, _) = two
    lender.demand("budget 0")
    a.give(GIVEN[:50])
    lender.become("a", ballooned=50, lent=78)
    for count in (1, 2):
        a.take([10**6, 10**6 + 1])
        used(a, DEFLATE, count)
    goes_on_sleeping(process_of(lender, "a"))
    a.take(GIVEN[:10])
    lender.become("a", waits="deflate", ballooned=50, lent=78)
    lender.demand("budget 1")
    used(a, DEFLATE, 3)
    lender.become("a", waits="nothing", ballooned=40)


def test_what_was_lent_ahead_stays_for_a_moment(two):
    """A driver may just take pages that it was told to, and hears meanwhile that it is to take
    none: they stay lent until it has read that, or hasn't for a while."""
    lender, (a, _) = two
    lender.demand("budget 0")
    lender.become("a", target=100)
    a.give(GIVEN[:100])
    lender.become("a", ballooned=100, lent=28)
    lender.demand("budget 1")  # of 256 frames it and the other one have 156: all 100 are lent
    lender.become("a", asked=0, lent=128)
    time.sleep(0.2)  # it reads that
    a.reads = False
    begin = time.monotonic()
    lender.demand("budget 0")
    lender.become("a", target=128, lent=28)
    assert 0.5 <= time.monotonic() - begin


def test_a_deflate_waits_until_another_guest_gives(two):
    lender, (a, b) = two
    a.give(GIVEN[:50])
    lender.become("a", ballooned=50)
    client = Client(lender.add("c"), lambda: "")
    client.negotiate()
    comes = Later(client.hand_over_memory)
    eventually(lambda: waits_of(lender, "c") == "room")
    lender.become("a", lent=78)
    # A deflate is before the one who comes, whose 128 pages find 50.
    a.take(GIVEN[:10])
    used(a, DEFLATE, 1)
    lender.become("a", waits="nothing", ballooned=40, lent=88)
    assert comes.waits(0.2)
    a.figures[FREE], b.figures[FREE] = 0, 88
    lender.become("b", target=88)
    b.give(GIVEN[:88])
    comes.ends()
    assert lent(lender) == 256
    a.take(GIVEN[10:15])
    lender.become("a", waits="deflate", ballooned=40)
    b.give(GIVEN[88:93])
    used(a, DEFLATE, 2)
    lender.become("a", waits="nothing", ballooned=35, lent=93)
    client.leave()


def test_what_a_target_lets_go_is_lent_before_it_is_asked_for(two, come):
    """A guest that deflates since it was told to doesn't wait for others that asked before: it
    couldn't give any pages meanwhile."""
    lender, (a, b) = two
    others = []
    lender.demand("terms b priority=1")
    comes = Later(lambda: others.append(come(lender, "c", {FREE: 16})))
    eventually(lambda: [lender.guests()[it]["target"] for it in "ab"] == [100, 28])
    a.give(GIVEN[:100]), b.give(GIVEN[:28])
    comes.ends()
    # With 44 pages that stay to it a can spare 84, b 28 and c 16: just what is missing. For the 16
    # that a is to take there is no room yet.
    a.figures[FREE] = b.figures[FREE] = 0
    with Connection(f"{lender.folder}/.control") as it:
        it.ask("guest", name="a", least=44 * PAGE)
    eventually(
        lambda: [it["target"] for it in lender.guests().values()] == [84, 28, 16], lender.guests
    )
    lender.become("a", lent=28, ballooned=100)
    others[0].give(GIVEN[:16])
    lender.become("a", lent=44, ballooned=100)
    b.take(GIVEN[:10])
    lender.become("b", waits="deflate", lent=100)
    a.take(GIVEN[:16])
    used(a, DEFLATE, 1)
    lender.become("a", waits="nothing", ballooned=84, lent=44)
    assert (waits_of(lender, "b"), b.client.used(DEFLATE)[0], lent(lender)) == ("deflate", 0, 256)
    others[0].give(GIVEN[16:26])
    used(b, DEFLATE, 1)
    lender.become("b", waits="nothing", ballooned=18, lent=110)


def test_an_overdraft_is_lent_where_nobody_can_give(lend, come):
    """No more than that, and nobody is granted more by the budget before it has come back."""
    lender = lend(1, *STRICT, "--overdraft", "10")
    a, _ = (come(lender, name, {FREE: pages}) for name, pages in zip("ab", (50, 0)))
    lender.set_budget(206)
    lender.become("a", asked=50)
    a.give(GIVEN[:50])
    lender.become("a", ballooned=50, lent=78)
    a.figures[FREE] = 0
    a.take(GIVEN[:10])
    used(a, DEFLATE, 1)
    lender.become("a", lent=88, waits="nothing")
    assert lender.status()["host"]["overdrawn"] == 10 * PAGE
    assert lender.ask("budget 0") == "error: an overdraft is no more than the budget"
    a.take(GIVEN[10:11])
    lender.become("a", waits="deflate")
    time.sleep(1.5)
    assert a.client.used(DEFLATE)[0] == 1
    lender.set_budget(217)
    used(a, DEFLATE, 2)
    assert lender.status()["host"]["overdrawn"] == 0


def test_an_overdraft_above_the_budget_is_refused(plain, tmp_path):
    words = [plain, tmp_path, "--budget", "1", "--overdraft", "257"]
    ran = subprocess.run(words, capture_output=True, text=True, stdin=subprocess.DEVNULL)
    assert (ran.returncode, ran.stdout) == (2, "")
    assert "overdraft: an overdraft is no more than the budget" in ran.stderr


def test_inflates_are_served_while_a_deflate_is_held(two):
    lender, (a, b) = two
    lender.demand("budget 0")
    a.give(GIVEN[:50])
    lender.become("a", ballooned=50, lent=78)
    a.take(GIVEN[:10])
    lender.become("a", waits="deflate")
    a.give(GIVEN[50:55])
    lender.become("a", waits="deflate", ballooned=55, lent=78)
    a.take(GIVEN[10:20])  # the next one is on the queue
    lender.demand("budget 1")
    used(a, DEFLATE, 2)
    lender.become("a", waits="nothing", ballooned=35)


def test_who_goes_makes_room(two):
    lender, (a, b) = two
    client = Client(lender.add("c"), lambda: "")
    client.negotiate()
    comes = Later(client.hand_over_memory)
    eventually(lambda: waits_of(lender, "c") == "room")
    b.leave()
    comes.ends()
    lender.become("c", lent=128)
    lender.become("b", here=0, lent=0)
    assert lent(lender) == 256
    client.leave()


def test_who_waits_and_goes_is_forgotten(two):
    lender, (a, b) = two
    client = Client(lender.add("c"), lambda: "")
    client.negotiate()
    comes = Later(client.hand_over_memory)
    eventually(lambda: waits_of(lender, "c") == "room")
    client.socket.shutdown(2)
    lender.become("c", here=0, lent=0)
    comes.join(PATIENCE)
    eventually(lambda: [it["target"] for it in lender.guests().values()] == [0, 0, 0])
    client.leave()


def test_memory_that_never_fits_is_refused(lend):
    lender = lend(1, *STRICT)
    lender.demand("budget 0")
    client = Client(lender.add("a"), lambda: "")
    client.negotiate()
    with pytest.raises(AssertionError):
        client.hand_over_memory()
    eventually(
        lambda: "refused a: no room for 512K: 512K are missing" in lender.said(), lender.said
    )
    client.leave()


def test_memory_that_grows_waits(two):
    lender, (a, b) = two
    client = Client(lender.add("c"), lambda: "")
    client.negotiate(protocol=OFFERED)
    lender.demand("terms b priority=1")
    a.give(GIVEN[:64])
    a.figures[FREE] = 0
    client.accepted(ADD_MEM_REG, client.region_body(0), client.files[:1])
    lender.become("c", pages=64, lent=64)
    grows = Later(lambda: client.accepted(ADD_MEM_REG, client.region_body(1), client.files[1:]))
    assert grows.waits()
    lender.become("c", waits="room", lent=64)
    lender.become("b", target=64)
    b.give(GIVEN[:10])
    lender.become("b", ballooned=10, lent=118)
    # A deflate is before it.
    a.take(GIVEN[:10])
    used(a, DEFLATE, 1)
    lender.become("a", waits="nothing", ballooned=54, lent=74)
    b.give(GIVEN[10:74])
    grows.ends()
    lender.become("c", pages=128, lent=128, waits="nothing")
    client.leave()


def test_memory_that_goes_makes_room(two):
    """A deflate waits, and is granted once memory of another guest goes."""
    lender, (a, b) = two
    client = Client(lender.add("c"), lambda: "")
    client.negotiate(protocol=OFFERED)
    a.give(GIVEN[:64]), b.give(GIVEN[:64])
    a.figures[FREE] = b.figures[FREE] = 0
    for number in range(2):
        client.accepted(ADD_MEM_REG, client.region_body(number), client.files[number : number + 1])
    lender.become("c", pages=128, lent=128)
    a.take(GIVEN[:10])
    lender.become("a", waits="deflate", lent=64)
    client.accepted(REM_MEM_REG, client.region_body(1))
    used(a, DEFLATE, 1)
    lender.become("c", pages=64, lent=64, waits="nothing")
    assert lent(lender) >= 64 + 10 + 64 + 64  # what the targets let go is lent, too
    client.leave()


def test_the_next_lender_grants_what_waits(two, lend):
    lender, (a, b) = two
    lender.demand("budget 0")
    a.give(GIVEN[:50])
    lender.become("a", ballooned=50, lent=78)
    a.take(GIVEN[:10])
    lender.become("a", waits="deflate")
    process = process_of(lender, "a")
    lender.kill()
    time.sleep(0.2)
    assert a.client.used(DEFLATE)[0] == 0
    second = lend(1, *STRICT, folder=lender.folder)
    used(a, DEFLATE, 1)
    # The target of the earlier lender falls to 0, and lets go the 40 that are left in its balloon.
    second.become("a", waits="nothing", ballooned=40, lent=128)
    assert process_of(second, "a") == process


class Driver(threading.Thread):
    """A driver that wants more and less memory, at random: it waits for each deflate, as Linux
    does."""

    def __init__(self, guest, seed, until):
        super().__init__(daemon=True)
        self.guest, self.chance, self.until, self.fault, self.balloon = (
            guest,
            random.Random(seed),
            until,
            None,
            [],
        )
        self.start()

    def run(self):
        free, deflates = list(GIVEN), 0
        try:
            while time.monotonic() < self.until:
                count = self.chance.randint(1, 30)
                if self.chance.random() < 0.55 and free:
                    pages, free = free[:count], free[count:]
                    self.guest.give(pages)
                    self.balloon += pages
                elif self.balloon:
                    pages, self.balloon = self.balloon[:count], self.balloon[count:]
                    self.guest.take(pages)
                    deflates += 1
                    while (
                        self.guest.client.used(DEFLATE)[0] & 0xFFFF != deflates & 0xFFFF
                        and time.monotonic() < self.until
                    ):
                        time.sleep(0.001)
                    free += pages
                time.sleep(self.chance.random() * 0.01)
        except Exception as fault:
            self.fault = fault


def test_what_is_lent_never_passes_the_budget(lend, come):
    lender = lend(1, *STRICT)
    until = time.monotonic() + 15
    guests = [come(lender, it, {FREE: 100}) for it in "ab"]
    drivers = [Driver(it, number, until) for number, it in enumerate(guests)]
    clients, comings = [], []
    looks, waited = 0, 0
    while time.monotonic() < until:
        seen = lender.guests().values()
        waited += sum(it["waits"] != "nothing" for it in seen)
        assert sum(it["pages"] - it["ballooned"] for it in seen) <= 256, lender.guests()
        assert lent(lender) <= 256
        looks += 1
        if looks == 20:
            clients.append(Client(lender.add("c"), lambda: ""))
            clients[0].negotiate()
            comings.append(Later(clients[0].hand_over_memory))
        time.sleep(0.02)
    for it in drivers:
        it.join()
        assert it.fault is None, it.fault
    assert looks > 100 and waited > 0
    for it in clients:
        it.leave()
