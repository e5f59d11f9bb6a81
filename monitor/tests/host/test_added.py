"""Memory that is added to a guest at work, and that waits: what ends its wait lets in who waits
after it."""

import contextlib
import ctypes
import os
import signal
import struct

import pytest
from played import TELL_GONE, WAIT_ROOM, Played
from tenants import PAGES, PAGES_OF_ALL, eventually, go_on, process_of, stop
from test_strict import STRICT, lent
from vhost_client import (
    ADD_MEM_REG,
    BUFFERS,
    INFLATE,
    OFFERED,
    PAGE,
    REM_MEM_REG,
    VRING_KICK,
    Client,
)

# Pages of the budget; of a guest, and those that are added to it, for which there is no room even
# without it; of another one; and of one that waits after it, for which there is room.
BUDGET, OWN, ADDED, OTHERS, NEXT = 200, 10, 190, 20, 50

# Pages of a guest with two slots.
ALL = 128

# The host isn't patient with who waits first, and lets nobody pass.
NEVER = ("--patience", "3600")

# ptrace(2), waitpid(2).
CONT, SEIZE, STOPS_AS_IT_ENDS, ANY_CHILD = 7, 0x4206, 0x40, 0x40000000


@pytest.fixture
def blocked(lend):
    """Returns a lender, a guest `a` that waits first, for memory that is added to it, and a guest
    `b` that waits after it."""
    lender = lend(1, *STRICT, *NEVER)
    lender.set_budget(BUDGET)
    a, c = Played(lender, "a", pages=OWN), Played(lender, "c", pages=OTHERS)
    a.report(waits=WAIT_ROOM, wait=1, wanted=OWN + ADDED)
    lender.become("a", waits="room", lent=OWN)
    b = Played(lender, "b")
    b.report(waits=WAIT_ROOM, wait=1, wanted=NEXT)
    lender.become("b", waits="room", lent=0)
    yield lender, a
    for it in (b, c):
        it.leave()
        lender.become(it.name_of, here=0)


def is_next(lender):
    """The other one is let in."""
    lender.become("b", lent=NEXT)


def test_who_waits_after_it_waits(blocked):
    lender, a = blocked
    looks = lender.counters()["looks"]
    eventually(lambda: lender.counters()["looks"] > looks + 2)
    assert lender.guests()["b"]["lent"] == 0
    a.leave()
    is_next(lender)
    lender.become("a", here=0, lent=0)


def test_a_process_asks_no_longer(blocked):
    lender, a = blocked
    a.report(waits=0, wanted=0)
    is_next(lender)
    assert lent(lender) == OWN + OTHERS + NEXT
    a.leave()


def test_the_client_has_gone_whose_process_has_not_ended(blocked):
    """What it has stays lent until then."""
    lender, a = blocked
    a.say(TELL_GONE)
    is_next(lender)
    assert lent(lender) == OWN + OTHERS + NEXT
    a.leave()


@contextlib.contextmanager
def ends_late(child):
    """A process that is killed meanwhile has ended afterwards only."""
    ptrace = ctypes.CDLL(None).ptrace
    ptrace.argtypes = [ctypes.c_long, ctypes.c_long, ctypes.c_void_p, ctypes.c_void_p]
    assert ptrace(SEIZE, child, None, STOPS_AS_IT_ENDS) == 0
    try:
        yield
        assert os.WIFSTOPPED(os.waitpid(child, ANY_CHILD)[1]), "it isn't killed, or has ended"
    finally:
        os.kill(child, signal.SIGKILL)
        ptrace(CONT, child, None, None)


def test_a_process_has_lied_that_has_not_ended(blocked):
    """It is served no longer, and what it has stays lent until then."""
    lender, a = blocked
    with ends_late(a.listens.child):
        a.report(pages=OWN + 1)
        is_next(lender)
        assert lent(lender) == OWN + OTHERS + NEXT
    lender.become("a", here=0, lent=0)
    a.channel.close()


def test_a_slot_that_is_removed_and_comes_back_at_once(lend):
    """What was in its balloon there left that with the slot, and is asked for as it comes back: a
    report says so in between, though one was sent just before."""
    lender = lend(1, *STRICT)
    client = Client(lender.add("a"), lender.said)
    client.begin(OFFERED)
    client.start()
    client.post_pages(INFLATE, [*range(PAGES, PAGES + 10)])
    lender.become("a", ready=1, ballooned=10)
    slot, process = client.region_body(1), process_of(lender, "a")
    stop(process)
    client.write(BUFFERS + PAGE, struct.pack("<I", PAGES_OF_ALL + 20))
    client.describe(INFLATE, 1, BUFFERS + PAGE, 4)
    client.publish(INFLATE, 1)
    client.send(VRING_KICK, struct.pack("<II", INFLATE, 0), flags=1)
    client.send(REM_MEM_REG, slot, flags=1)
    client.send(ADD_MEM_REG, slot, client.files[1:], flags=1)
    go_on(process)
    lender.become("a", pages=ALL, ballooned=1, lent=ALL, waits="nothing", cooperates=1)
    assert not [it for it in lender.said() if "unasked" in it]
    client.leave()
