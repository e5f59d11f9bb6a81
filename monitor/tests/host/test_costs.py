"""What a host of 64 idle guests takes: their processes' memory, and the processors' time of all
together. `-rP` prints the figures."""

import select
import struct
import time

import pytest
from host_small import Talker
from tenants import eventually, process_of
from test_strict import Later
from vhost_client import INFLATE, NO_FILE, SET_VRING_KICK, Client
from waiting import goes_on_sleeping, seconds_of

# KiB that a guest's process may have for itself, and a part of one processor for all.
MOST_KIB, MOST_SHARE = 1536, 0.02

# Guests, each asked once a second as it rests, which it does after two seconds; and the part of the
# answers without which the machine is too busy to say what they take.
GUESTS, ASKED, RESTED, SECONDS, MOST_ANSWERS = 64, 1, 4, 10, 0.9


def private_kib(process):
    """Returns the KiB that a process has for itself."""
    with open(f"/proc/{process}/smaps_rollup", encoding="ascii") as numbers:
        its = {it.split()[0]: int(it.split()[1]) for it in numbers if it.endswith("kB\n")}
    return its["Private_Clean:"] + its["Private_Dirty:"]


def answer_all(guests, seconds):
    """Has all guests answer each question for so long; returns how many they answered."""
    of_socket, answered, end = {it.own: it for it in guests}, 0, time.monotonic() + seconds
    while time.monotonic() < end:
        for it in select.select(list(of_socket), [], [], 0.1)[0]:
            of_socket[it].answer()
            answered += 1
    return answered


def test_sixty_four_idle_guests(lend):
    lender = lend(64)
    guests = [Talker(lender.add(f"guest-{it}"), lambda: "", 60) for it in range(GUESTS)]
    processes = [process_of(lender, it.name) for it in guests]
    answer_all(guests, RESTED)
    before, begin = [seconds_of(it) for it in (lender.process.pid, *processes)], time.monotonic()
    answered = answer_all(guests, SECONDS)
    took = time.monotonic() - begin
    shares = [
        (seconds_of(it) - then) / took for it, then in zip((lender.process.pid, *processes), before)
    ]
    most = max(map(private_kib, processes))
    print(
        f"{GUESTS} guests, {answered / took:.0f} answers a second: at most {most} KiB each, the "
        f"lender {private_kib(lender.process.pid)}"
    )
    print(f"of a processor: {100 * sum(shares):.2f}% in all, the lender {100 * shares[0]:.2f}%")
    for it in guests:
        it.leave()
    assert most <= MOST_KIB
    if answered < MOST_ANSWERS * GUESTS * ASKED * took:
        pytest.skip(
            f"{answered / took:.0f} of {GUESTS * ASKED} answers a second: the machine is too busy "
            "for what they take"
        )
    assert sum(shares) <= MOST_SHARE


# Milliseconds between two looks, seconds in which a process that sleeps runs for none, and tries: a
# look may come amid one.
SELDOM, QUIET, TRIES = ("--period", "60000"), 0.2, 3


def sleeps(process):
    """Whether a process doesn't run for a while."""
    before = seconds_of(process)
    time.sleep(QUIET)
    return seconds_of(process) == before


def test_a_host_that_awaits_clients_sleeps(lend):
    lender = lend(1, *SELDOM)
    lender.demand("add a")
    eventually(lambda: sleeps(lender.process.pid), "it never sleeps")
    client = Client(lender.add("b"))
    client.begin()
    eventually(lambda: sleeps(lender.process.pid), "it never sleeps beside a client")
    client.leave()


def test_the_process_of_a_guest_that_waits_sleeps(lend):
    lender = lend(1, *SELDOM, "--strict", "--floor", "0")
    lender.set_budget(255)
    first, second = (Client(lender.add(it)) for it in "ab")
    first.start(), second.negotiate()
    comes = Later(second.hand_over_memory)
    lender.become("b", waits="room")
    eventually(lambda: sleeps(process_of(lender, "b")), "it never sleeps")
    first.leave(), comes.ends(), second.leave()


def test_a_process_without_a_lender_sleeps_between_its_looks(lend):
    lender = lend(1, *SELDOM)
    client = Client(lender.add("a"))
    client.start()
    process = process_of(lender, "a")
    lender.kill()
    goes_on_sleeping(process)
    client.leave()


def test_the_process_of_a_queue_that_nobody_kicks_sleeps_between_its_looks(lend):
    lender = lend(1, *SELDOM)
    client = Client(lender.add("a"))
    client.start()
    client.accepted(SET_VRING_KICK, struct.pack("<Q", INFLATE | NO_FILE))
    goes_on_sleeping(process_of(lender, "a"))
    client.leave()


def test_clients_that_come_after_one_another_are_taken_between_two_looks(lend):
    """The lender wakes for those by itself, though nothing else comes."""
    lender = lend(1, *SELDOM)
    path = lender.add("a")
    for _ in range(TRIES):
        looks = lender.counters()["looks"]
        for _ in range(3):
            client = Client(path)
            client.begin()
            client.leave()
        if lender.counters()["looks"] == looks:
            return
    raise AssertionError("each time it has looked meanwhile")
