"""A guest's process that ends amid its work, and another one that takes it over on the same
client, which notices nothing."""

import contextlib
import os
import random
import select
import signal
import struct
import threading

import pytest
from tenants import FREE, PAGES, PAGES_OF_ALL, eventually, process_of, stop
from vhost_client import (
    BUFFERS,
    DEFLATE,
    GET_CONFIG,
    INFLATE,
    PAGE,
    SET_CONFIG,
    SET_STATUS,
    SET_VRING_BASE,
    SIZE,
    STATISTICS,
    Client,
)

WIDE = ("--floor", "0", "--period", "100", "--step", "0")

# Places where a process is cut off: more and fewer than these are come by.
LEAST_CUTS, MOST_CUTS = 300, 1500

# Chains that a process uses at most before what it is is kept again: those of 16 notices, each of
# which serves 64.
MOST_USED = 16 * 64

# How often a process is killed, within how many seconds from when it begins to be busy, and the
# pages that go into a balloon and out of it meanwhile.
KILLS = 100
KILL_WITHIN = 0.01
GIVEN = [*range(PAGES_OF_ALL + 28, PAGES_OF_ALL + 64), *range(PAGES, PAGES + 64)]


def is_told(client, number):
    """Waits until the driver is told of a used buffer of this queue."""
    if client.calls[number] is not None:
        assert client.called(number) > 0, f"queue {number} isn't called"
        return
    while client.told() != number:
        continue
    while select.select([client.own], [], [], 0)[0]:
        client.told()


def serve(client, number, requests):
    """Has requests of pages served, all at once: each is used once, in order, and the driver is
    told."""
    begun = client.available[number]
    for place, pages in enumerate(requests):
        head, buffer = (begun + place) % SIZE, BUFFERS + (number * SIZE + place) * 256
        client.write(buffer, struct.pack(f"<{len(pages)}I", *pages))
        client.describe(number, head, buffer, 4 * len(pages))
        client.publish(number, head)
    client.kick(number)
    wanted = client.available[number]
    eventually(
        lambda: client.used(number)[0] == wanted & 0xFFFF,
        lambda: f"queue {number}: {client.used(number)[0]} of {wanted} are used",
    )
    at = client.table(number) + 2 * PAGE
    for place in range(len(requests)):
        head = (begun + place) % SIZE
        assert struct.unpack("<II", client.read(at + 4 + 8 * head, 8)) == (head, 0)
    is_told(client, number)


def live(client, begin):
    """A driver's life, each step of which has one outcome; returns what is in its balloon."""
    begin(client)
    first, second, third = [[it, it + 1] for it in (PAGES, PAGES + 4, PAGES + 8)]
    serve(client, INFLATE, [first, second, third])
    assert client.holes() == first + second + third
    client.write(BUFFERS + 8 * PAGE, struct.pack("<HQ", FREE, 20 * PAGE))
    client.describe(STATISTICS, 0, BUFFERS + 8 * PAGE, 10)
    client.publish(STATISTICS, 0), client.kick(STATISTICS)
    client.accepted(SET_CONFIG, struct.pack("<III", 4, 4, 0) + struct.pack("<I", 6))
    serve(client, DEFLATE, [first, [second[0]]])
    for it in (first[0], first[1], second[0]):
        client.write(it * PAGE, b"\xee" * PAGE)
    base = client.stop_ring(INFLATE)
    assert base == 3
    client.accepted(SET_VRING_BASE, struct.pack("<II", INFLATE, base))
    client.tell_place(INFLATE, base=base)
    if client.calls[INFLATE] is not None:
        client.give_events(INFLATE)
    else:
        client.enable(INFLATE)
    serve(client, INFLATE, [[PAGES + 12], [PAGES + 13]])
    answer = client.send(GET_CONFIG, struct.pack("<III", 0, 8, 0) + bytes(8))
    assert struct.unpack("<II", answer[12:]) == (0, 6)
    return [second[1], *third, PAGES + 12, PAGES + 13]


BEGINS = {"messages": Client.start, "events": Client.start_by_events}

# What a strict guest is granted in such a life: its memory, at once or in two parts, and two
# deflates.
GRANTS = {Client.start: 3, Client.start_by_events: 4}


def cut_once(lender, name, begin, strict):
    """A life amid which the process of this guest is cut off; whether it was."""
    client, grants = (
        Client(lender.add(name), lambda: lender.said()[-4:]),
        lender.counters()["grants"],
    )
    ballooned = live(client, begin)
    assert client.holes() == ballooned
    lender.become(name, ballooned=len(ballooned), ready=1, waits="nothing")
    assert lender.counters()["grants"] - grants == (GRANTS[begin] if strict else 0)
    assert not [it for it in lender.said() if "unasked" in it]
    client.socket.setblocking(False)
    with pytest.raises(BlockingIOError):
        client.socket.recv(1)
    client.leave()
    lender.demand(f"remove {name}")
    ended = f"{name}: its process has ended by signal"
    return any(it.startswith(ended) for it in lender.said())


def cut_everywhere(lender, begin, places, strict):
    """Lives that are cut off in one place each, until one isn't."""
    for place in places:
        if not cut_once(lender, f"cut-{place}", begin, strict):
            return place
    return None


@pytest.mark.timeout(900)
@pytest.mark.parametrize("strict, each", (((), 5), (("--strict",), 1)), ids=("at-once", "strict"))
@pytest.mark.parametrize("way", BEGINS)
def test_a_process_that_is_cut_off_anywhere(lend, cutting, way, strict, each):
    # A strict guest's process does what another one does, and more: of the other's places some are
    # enough.
    lender = lend(64, *WIDE, *strict, "--lines", "10000", "--program", cutting)
    place = cut_everywhere(lender, BEGINS[way], range(1, MOST_CUTS, each), strict)
    assert place and place > LEAST_CUTS, f"{place} places"


# How a client stops all queues: Linux disables them, QEMU asks where each resumes, and before that
# tells of a reset.
STOPS = {
    "disabled": lambda client: [client.enable(number, 0) for number in range(4)],
    "asked": lambda client: [client.stop_ring(number) for number in range(4)],
    "reset": lambda client: client.accepted(SET_STATUS, struct.pack("<Q", 0)),
}


@pytest.mark.timeout(900)
@pytest.mark.parametrize("way", STOPS)
def test_a_process_that_is_cut_off_as_a_driver_stops(lend, cutting, way):
    """The next driver has none of the pages in its balloon that this one had."""
    lender = lend(64, *WIDE, "--lines", "10000", "--program", cutting)
    for place in range(1, MOST_CUTS, 2):
        name = f"cut-{place}"
        client = Client(lender.add(name), lambda: lender.said()[-4:])
        client.start_by_events()
        serve(client, INFLATE, [[PAGES, PAGES + 1]])
        STOPS[way](client)
        client.go_on()
        lender.become(name, ready=1, ballooned=0)
        client.leave()
        lender.demand(f"remove {name}")
        if not any(
            it.startswith(f"{name}: its process has ended by signal") for it in lender.said()
        ):
            break
    assert place > LEAST_CUTS


class Worked:
    """Pages of a guest with bytes of their own, of which some are in its balloon."""

    def __init__(self, client, chance):
        self.client, self.chance, self.ballooned = client, chance, set()
        self.bytes = {it: self.fill(it) for it in GIVEN}

    def fill(self, page):
        """Writes new bytes into a page; returns them."""
        data = self.chance.randbytes(PAGE)
        self.client.write(page * PAGE, data)
        return data

    def requests(self, pages):
        """Returns up to SIZE requests of these pages, and notes them."""
        pages = self.chance.sample(sorted(pages), min(len(pages), 40))
        return [pages[it::SIZE] for it in range(SIZE) if pages[it::SIZE]]

    def inflate(self):
        """Gives some pages."""
        requests = self.requests(set(GIVEN) - self.ballooned)
        serve(self.client, INFLATE, requests)
        self.ballooned |= {page for it in requests for page in it}

    def deflate(self):
        """Takes some pages back, and fills them."""
        requests = self.requests(self.ballooned)
        serve(self.client, DEFLATE, requests)
        for page in (page for it in requests for page in it):
            self.ballooned.discard(page)
            self.bytes[page] = self.fill(page)

    def check(self):
        """Each page that isn't in the balloon has its bytes, and each other one isn't held."""
        assert self.client.holes() == sorted(self.ballooned)
        for page in set(GIVEN) - self.ballooned:
            assert self.client.read(page * PAGE, PAGE) == self.bytes[page], page


@pytest.mark.timeout(600)
@pytest.mark.parametrize("strict", ((), ("--strict",)), ids=("at-once", "strict"))
@pytest.mark.parametrize("way", BEGINS)
def test_a_process_that_is_killed_amid_work(lend, way, strict):
    lender, chance = lend(64, *WIDE, *strict, "--lines", "10000"), random.Random(f"amid {way}")
    client = Client(lender.add("a"), lambda: lender.said()[-4:])
    BEGINS[way](client)
    lender.become("a", ready=1)
    work = Worked(client, chance)
    for number in range(KILLS):
        process = process_of(lender, "a")
        kill = threading.Timer(chance.random() * KILL_WITHIN, os.kill, (process, signal.SIGKILL))
        kill.start()
        work.inflate(), work.deflate()
        kill.join()
        eventually(lambda: lender.guests()["a"]["process"] not in (0, process))
        work.check()
        lender.become("a", ballooned=len(work.ballooned), waits="nothing", ready=1)
    said = [
        it
        for it in lender.said()
        if it == "a: its process has ended by signal 9: another one takes over"
    ]
    assert (len(said), lender.counters()["gone"]) == (KILLS, 0)
    client.leave()


def test_a_process_that_is_cut_off_as_it_reads_what_is_no_message(lend, cutting):
    """The next one reads no more bytes of a body for which there is no room: it refuses these."""
    lender = lend(64, *WIDE, "--lines", "10000", "--program", cutting)
    for place in range(1, MOST_CUTS):
        name = f"cut-{place}"
        client = Client(lender.add(name), lambda: "")
        with contextlib.suppress(OSError):
            client.socket.sendall(struct.pack("<III", 1, 1, 1 << 20) + bytes(1 << 20))
        lender.become(name, here=0)
        lender.tells(f"refused {name}: the client's bytes are no message")
        lender.demand(f"remove {name}")
        if not any(f"{name}: its process has ended by signal" in it for it in lender.said()):
            break
    assert place > 5


def test_a_process_that_ends_again_and_again_is_not_started_anew(lend, cutting):
    lender = lend(64, *WIDE, "--program", cutting)
    client = Client(lender.add("cut-always"), lambda: "")
    assert client.socket.recv(1) == b""
    lender.become("cut-always", here=0)
    # No signal of its own ends the first process of a namespace: abort() ends it by a fault.
    assert lender.said()[-2:] == [
        "cut-always: its process has ended by signal 11",
        "gone cut-always",
    ]


@pytest.mark.parametrize("more", (0, 1))
def test_a_used_index_that_moved_as_a_process_was_killed(lend, more):
    """Further than a process uses before what it is is kept again, the next one doesn't believe
    it."""
    lender, index = lend(64, *WIDE), MOST_USED + more
    client = Client(lender.add("a"), lambda: lender.said()[-4:])
    client.start_by_events()
    process = process_of(lender, "a")
    stop(process)
    for part in (1, 2):
        client.write(client.table(INFLATE) + part * PAGE + 2, struct.pack("<H", index))
    client.available[INFLATE] = index
    os.kill(process, signal.SIGKILL)
    if more:
        lender.become("a", here=0)
        assert f"refused a: queue 0 has the used index {index}, and had 0" in lender.said()
    else:
        serve(client, INFLATE, [[PAGES]])
    client.leave()


WRONG = (
    "index-0",
    "no-set",
    "answers-twice",
    "lost-bytes",
    "lost-files",
    "old-state",
    "new-number",
    "ungranted",
    "handles-twice",
    "no-call",
)


@contextlib.contextmanager
def is_found(wrong, monkeypatch):
    """Later processes do something wrong, by which a fault is found; waits end soon."""
    monkeypatch.setenv("ANEW_WRONG", wrong)
    for it in ("vhost_client", "tenants", "waiting"):
        monkeypatch.setattr(f"{it}.PATIENCE", 2)
    with pytest.raises((AssertionError, OSError, struct.error, TypeError)) as found:
        yield
    print(f"{wrong}: {found.value}")


@pytest.mark.timeout(900)
@pytest.mark.parametrize("wrong", [pytest.param(it, marks=pytest.mark.wrong(it)) for it in WRONG])
def test_a_process_that_goes_on_wrongly_is_found(lend, cutting, wrong, monkeypatch):
    with is_found(wrong, monkeypatch):
        lender = lend(64, *WIDE, "--strict", "--lines", "10000", "--program", cutting)
        for way in BEGINS:
            cut_everywhere(lender, BEGINS[way], range(1, MOST_CUTS), True)
