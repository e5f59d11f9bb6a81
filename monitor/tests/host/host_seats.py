"""Runs of a host without any Linux: what a guest can spare by its statistics, worked out by hand,
and what its seat keeps and forgets. Its guests are clients of 128 pages, in two regions."""

import os
import struct
import time

from host_checks import check_decisions, eventually
from host_small import FREE_MEMORY, PAGES, Talker
from linux_kit import demand
from vhost_client import (
    ADD_MEM_REG,
    DEFLATE,
    INFLATE,
    OFFERED,
    PAGE,
    REGIONS,
    REM_MEM_REG,
    SET_VRING_BASE,
    Client,
)

TOTAL_MEMORY = 5


def seat(town, name="a"):
    """Returns what the host says of a guest."""
    return town.host.guests()[name]


def becomes(town, wanted, name="a"):
    """Waits until a guest has these numbers."""

    def seen():
        return {it: seat(town, name)[it] for it in wanted}

    eventually(
        lambda: seen() == wanted, lambda: f"{name} has {seen()}, and should have {wanted}", 5
    )


def spares_run(bench):
    """What a guest can spare, of 128 pages, while the host asks nobody: its period is longer than
    the run."""
    with bench.town(1, ("--floor", "0", "--period", "60000"), checked=True) as town:
        client = Talker(town.host.add("a"), town.host.why, 60)
        becomes(town, {"free": 60, "spare": 60, "answers": 1, "ballooned": 0})
        # Free pages are those of its statistics, though it has given some up since then.
        client.post_pages(INFLATE, list(range(PAGES, PAGES + 20)))
        becomes(town, {"ballooned": 20, "free": 60, "spare": 60})
        client.free = 45
        client.tell_again(town)
        becomes(town, {"free": 45, "spare": 65})
        # It takes pages back by itself: it has none free, whatever it said before.
        town.host.demand("a target 20")
        client.post_pages(DEFLATE, list(range(PAGES, PAGES + 5)))
        becomes(town, {"ballooned": 15, "taken": 5, "free": 0, "spare": 15, "answers": 1})
        # What it is asked to take back, it doesn't take by itself.
        town.host.demand("a target 10")
        client.post_pages(DEFLATE, list(range(PAGES + 5, PAGES + 10)))
        becomes(town, {"ballooned": 10, "taken": 5})
        client.free = 30
        client.tell_again(town)
        becomes(town, {"free": 30, "spare": 40})
        # More than it has, and more than 32 bits.
        client.free = 2**52 - 1
        client.tell_again(town)
        becomes(town, {"free": 128, "spare": 128})
        # A floor of 256 pages leaves nothing; without a figure for free pages, what is ballooned
        # can be spared.
        town.host.demand("floor 1")
        becomes(town, {"spare": 0})
        client.tag = TOTAL_MEMORY
        client.tell_again(town)
        becomes(town, {"answers": 0, "spare": 10})
        client.tag, client.free = FREE_MEMORY, 100
        client.tell_again(town)
        becomes(town, {"answers": 1, "free": 100, "spare": 0})
        town.host.demand("floor 0")
        becomes(town, {"spare": 110})
        counters = town.host.counters()
        demand(
            (counters["looks"], counters["peak_kib"]) == (0, 0), f"the host has looked: {counters}"
        )
        client.leave()
    return "what a guest can spare, by hand"


def rings_of(client, on):
    """Disables all queues of a client, or enables them."""
    for number in range(4):
        demand(
            client.enable(number, on) == bytes(8),
            f"queue {number} isn't {'enabled' if on else 'disabled'}: {client.why()}",
        )


def lives_of_a_balloon(town, client):
    """Rings that stop and go on keep the set of ballooned pages; a new life begins without them."""
    client.post_pages(INFLATE, list(range(PAGES + 50, PAGES + 60)))
    becomes(town, {"ballooned": 10, "ready": 1})
    rings_of(client, 0)
    becomes(town, {"ballooned": 10, "ready": 0, "spare": 0})
    rings_of(client, 1)
    becomes(town, {"ballooned": 10, "ready": 1})
    rings_of(client, 0)
    client.clear(INFLATE)
    client.accepted(SET_VRING_BASE, struct.pack("<II", INFLATE, 0))
    rings_of(client, 1)
    becomes(town, {"ballooned": 0, "ready": 1})
    client.post_pages(INFLATE, list(range(PAGES, PAGES + 5)))
    becomes(town, {"ballooned": 5})


def region(client, number, request):
    """Hands over one of a client's regions, or takes it away."""
    client.accepted(
        request,
        client.region_body(number),
        client.files[number : number + 1] if request == ADD_MEM_REG else (),
    )


def plugged_again(town, client):
    """A guest whose device is plugged again has no pages until it hands over its memory again."""
    client.negotiate(protocol=OFFERED)
    client.add_memory()
    for number in range(4):
        client.place(number)
    rings_of(client, 1)
    client.post_pages(INFLATE, [PAGES])
    becomes(town, {"pages": 128, "ready": 1, "ballooned": 1})
    client.begin(OFFERED)
    becomes(town, {"here": 1, "pages": 0, "ready": 0, "ballooned": 0, "held_kib": 0})


def memory_by_regions(town, client):
    """A guest's pages are those of its regions; the set of ballooned ones grows with them, and
    keeps what it has."""
    client.negotiate(protocol=OFFERED)
    region(client, 0, ADD_MEM_REG)
    for number in range(4):
        client.place(number)
    rings_of(client, 1)
    becomes(town, {"pages": 64, "ready": 1})
    client.post_pages(INFLATE, [REGIONS[0][0] // PAGE + 63])
    becomes(town, {"ballooned": 1, "inflated": 2})
    region(client, 1, ADD_MEM_REG)
    becomes(town, {"pages": 128, "ballooned": 1})
    client.post_pages(INFLATE, [PAGES + 63])
    becomes(town, {"ballooned": 2, "inflated": 3})
    region(client, 1, REM_MEM_REG)
    becomes(town, {"pages": 64, "ballooned": 1})
    region(client, 1, ADD_MEM_REG)
    becomes(town, {"pages": 128, "ballooned": 1})


def reminded_by_its_balloon(town, client):
    """A guest is reminded of its target while its balloon, by the set, is off it: whatever it says
    of that itself. One that doesn't answer isn't reminded any longer."""
    town.host.demand("a target 5")
    before = told(town)
    time.sleep(1)
    demand(
        told(town) == before,
        f"a guest whose balloon is on its target is told of it {told(town) - before} times",
    )
    client.answers = False
    becomes(town, {"answers": 0})
    town.host.demand("a target 3")
    before = told(town)
    time.sleep(1)
    demand(
        told(town) == before, f"a guest that doesn't answer is reminded {told(town) - before} times"
    )


def not_reminded_while_it_moves(town, client):
    """A guest whose balloon moves towards its target isn't told of that again."""
    town.host.demand("a target 60")
    before, last, longest = told(town), time.monotonic(), 0
    for page in range(PAGES + 10, PAGES + 50):
        client.answer()
        client.post_pages(INFLATE, [page])
        time.sleep(0.02)
        longest, last = max(longest, time.monotonic() - last), time.monotonic()
    again = told(town) - before
    # Else the machine has held the client up, and the balloon has stayed.
    demand(
        again == 0 or longest > 0.1,
        f"a guest whose balloon moves is told of its target {again} times more",
    )
    # Once it stays off it, it is.
    last = told(town)
    eventually(
        lambda: client.answer() or told(town) > last,
        "a guest whose balloon has stopped isn't told of its target again",
        5,
    )


def told(town):
    """Returns how often `a` was told of a change."""
    words = town.host.ask("a counters").split()
    return int(words[words.index("told") + 1])


def room_for_more(town):
    """Guests come, and their memory grows, while a guest of 128 pages is there on 256 frames;
    returns them."""
    third = Client(town.host.add("b"), town.host.why)
    third.negotiate(protocol=OFFERED)
    for number in (0, 1):
        region(third, number, ADD_MEM_REG)
    becomes(town, {"pages": 128}, "b")
    # There is no room for more: of 256 frames, each has 128.
    fourth = Client(town.host.add("c"), town.host.why)
    fourth.negotiate(protocol=OFFERED)
    fourth.send(ADD_MEM_REG, fourth.region_body(0), fourth.files[:1], flags=1)
    eventually(
        lambda: town.host.counters()["refused"] == 1, "a guest without room isn't refused", 5
    )
    demand(
        town.host.why_of("c") == "refused c: no room for 256K: 252K are missing",
        town.host.why_of("c"),
    )
    # Who gives a region back makes room, and finds none when it wants it again.
    region(third, 1, REM_MEM_REG)
    becomes(town, {"pages": 64}, "b")
    fifth = Client(f"{town.host.folder}/c", town.host.why)
    fifth.negotiate(protocol=OFFERED)
    region(fifth, 0, ADD_MEM_REG)
    becomes(town, {"pages": 64}, "c")
    third.send(ADD_MEM_REG, third.region_body(1), third.files[1:], flags=1)
    eventually(lambda: town.host.counters()["refused"] == 2, "a guest without room grows", 5)
    demand(
        town.host.why_of("b") == "refused b: no room for 512K: 252K are missing",
        town.host.why_of("b"),
    )
    return third, fourth, fifth


def seats_run(bench):
    """What a seat keeps of a guest while its rings stop, and forgets once it has gone."""
    with bench.town(1, ("--floor", "0"), checked=True) as town:
        path = town.host.add("a")
        client = Talker(path, town.host.why, 60)
        becomes(town, {"here": 1, "ready": 1, "pages": 128, "answers": 1})
        lives_of_a_balloon(town, client)
        not_reminded_while_it_moves(town, client)
        client.post_pages(DEFLATE, list(range(PAGES + 10, PAGES + 50)))
        reminded_by_its_balloon(town, client)
        client.leave()
        nothing = dict.fromkeys(
            (
                "here ready pages held_kib ballooned target free spare answers inflated taken "
                "statistics"
            ).split(),
            0,
        )
        becomes(town, nothing)
        # Who comes next begins with nothing; it never tells its statistics.
        second = Client(path, town.host.why)
        plugged_again(town, second)
        memory_by_regions(town, second)
        becomes(town, {"answers": 0, "spare": 1, "statistics": 0, "target": 0})
        # It counts for what it holds, since it never tells its statistics: all its pages from now
        # on.
        for file in second.files:
            os.posix_fallocate(file, 0, os.fstat(file).st_size)
        becomes(town, {"held_kib": 4 * 128})
        others = room_for_more(town)
        counters = town.host.counters()
        demand(
            [counters[it] for it in ("admitted", "refused", "gone")] == [5, 2, 3],
            f"4 came in, one twice, 2 of 5 were refused: {counters}",
        )
        demand(check_decisions(town) > 0, "nothing was decided")
        for it in (second, *others):
            it.leave()
    return "lives at two seats"
