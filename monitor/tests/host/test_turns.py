"""What one turn of the lender's loop takes, whatever clients of its sockets do: its processor time,
and how many processes it starts."""

import contextlib
import itertools
import json
import select
import socket
import time

import pytest
from host_small import Talker
from played import TELL_REMARK, TELL_REPORT, VERSION, WAIT_ROOM, Listens, Message
from tenants import eventually, go_on, process_of, status_of, stop
from test_strict import STRICT
from waiting import PATIENCE, patience_from_now

# Guests, clients of the status socket, and the answers that are waited for.
GUESTS, CLIENTS, ANSWERS = 64, 256, 4000

# The place of the longest durations that a turn may take, 5 ms; and of all turns the part that may
# take longer, as the machine is busy.
MOST_PLACE, MOST_PART = 1, 0.01

# Statuses that are made in a second at most, as one of GUESTS takes more than half a millisecond,
# and all of them a 20th of the time.
STATUSES_A_SECOND = 100

# Processes that may be started at once, and in a second; the seconds for which all clients come and
# go.
AHEAD, A_SECOND, FLAPPING = 64, 50, 3

# Processes that send without end, and the seconds for which they do.
FLOODS, FLOODING = 60, 3


@pytest.fixture
def full(lend):
    """A lender with as many guests as it has at most."""
    lender = lend(64, "--floor", "0")
    guests = [Talker(lender.add(f"guest-{it}"), lambda: "", 60) for it in range(GUESTS)]
    yield lender
    for it in guests:
        it.leave()


@contextlib.contextmanager
def short_turns(lender):
    """The turns meanwhile take no more of a processor than they may."""
    before = turns_of(lender)
    yield
    counts = [now - then for then, now in zip(before, turns_of(lender))]
    print(f"turns by their processor time: {counts}")
    assert sum(counts[MOST_PLACE + 1 :]) <= MOST_PART * sum(
        counts
    ), f"turns by their processor time: {counts}"


def turns_of(lender):
    """Returns the counts of its turns by their processor time."""
    return lender.status()["host"]["measures"]["processor"]["counts"]


@contextlib.contextmanager
def clients_that_ask(lender, request):
    """Clients of the status socket that have asked."""
    clients = [socket.socket(socket.AF_UNIX) for _ in range(CLIENTS)]
    for it in clients:
        it.connect(f"{lender.folder}/.status")
        it.send(request)
    yield clients
    for it in clients:
        it.close()


def read_lines(clients, wanted, request=b""):
    """Returns how many lines were read, once these have come, and how many of them differ; each
    client asks again at once."""
    rests, lines, seen, end = dict.fromkeys(clients, b""), 0, set(), patience_from_now()
    while lines < wanted and time.monotonic() < end:
        for it in select.select(clients, [], [], PATIENCE)[0]:
            *whole, rests[it] = (rests[it] + it.recv(1 << 20)).split(b"\n")
            it.send(request * len(whole))
            lines += len(whole)
            seen.update(map(hash, whole))
    assert lines >= wanted, f"{lines} of {wanted} lines have come"
    return len(seen)


def asks(name):
    """Returns a request without fields."""
    return b'{"version": 1, "request": "%s"}\n' % name


def test_status_clients_at_full_speed_leave_turns_short(full):
    begin = time.monotonic()
    with short_turns(full), clients_that_ask(full, asks(b"status")) as clients:
        differ = read_lines(clients, ANSWERS, asks(b"status"))
    most = STATUSES_A_SECOND * (time.monotonic() - begin + 1)
    assert differ < max(ANSWERS / 4, most), "each client has a status of its own"


def test_logs_at_full_speed_leave_turns_short(full):
    for floor in range(20):
        full.demand(f"floor {floor % 2}")
        full.guests()
    with short_turns(full), clients_that_ask(full, asks(b"log")) as clients:
        read_lines(clients, ANSWERS, asks(b"log"))


def test_a_decision_is_told_to_all_followers_in_a_short_turn(full):
    with clients_that_ask(full, asks(b"events")) as clients:
        read_lines(clients, CLIENTS)
        with short_turns(full):
            for floor in range(10):
                full.demand(f"floor {floor % 2}")
                read_lines(clients, CLIENTS)


def test_events_of_all_guests_are_told_to_all_followers_in_short_turns(lend):
    lender = lend(64)
    with clients_that_ask(lender, asks(b"events")) as clients:
        read_lines(clients, CLIENTS)
        with short_turns(lender):
            read_lines(clients, CLIENTS * len(add_all(lender)))


@contextlib.contextmanager
def come_at_once(lender, names):
    """Clients come while the lender stands still, and somebody asks for its status; what is in
    that."""
    stop(lender.process.pid)
    eventually(lambda: status_of(lender.process.pid)["State"].startswith("T"))
    clients = [connect(lender, it) for it in (".control", *names)]
    clients[0].send(asks(b"status"))
    go_on(lender.process.pid)
    with clients[0].makefile("rb") as lines:
        yield json.loads(lines.readline())["guests"]
    for it in clients:
        it.close()


def clients_of(lender):
    """Returns how many clients each guest has had."""
    return {it["name"]: it["counters"]["clients"] for it in lender.status()["guests"]}


def connect(lender, name, blocks=True):
    """Returns a client that has come, and says nothing."""
    it = socket.socket(socket.AF_UNIX)
    it.setblocking(blocks)
    it.connect(f"{lender.folder}/{name}")
    return it


def add_all(lender):
    """Makes room for as many guests as there are at most; returns their names."""
    names = [f"guest-{it}" for it in range(GUESTS)]
    for it in names:
        lender.add(it)
    return names


def test_one_process_is_started_in_a_turn(lend):
    lender = lend(64)
    with come_at_once(lender, add_all(lender)) as guests:
        assert sum(it["state"] != "absent" for it in guests) <= 1
        eventually(lambda: all(clients_of(lender).values()), "somebody's client isn't taken")


def test_who_comes_seldom_comes_first(lend):
    lender = lend(64)
    for it in ("a", "b", "c"):
        lender.add(it)
    for it in ("a", "c"):
        connect(lender, it).close()
        eventually(
            lambda name=it: clients_of(lender)[name] == 1 and not lender.guests()[name]["here"]
        )
    with come_at_once(lender, ("a", "b", "c")):
        keepers = {it: int(status_of(process_of(lender, it))["PPid"]) for it in ("a", "b", "c")}
    assert min(keepers, key=keepers.get) == "b", keepers


def test_a_guest_is_removed_in_the_turn_in_which_its_client_comes(lend, checked):
    """Nothing is started for it, by the compiler's checks: it isn't there any longer."""
    lender = lend(1, program=checked)
    lender.demand("add a")
    stop(lender.process.pid)
    eventually(lambda: status_of(lender.process.pid)["State"].startswith("T"))
    clients = [connect(lender, it) for it in (".control", "a")]
    clients[0].send(b'{"version": 1, "request": "remove", "name": "a"}\n')
    go_on(lender.process.pid)
    with clients[0].makefile("rb") as lines:
        assert json.loads(lines.readline())["ok"]
    assert lender.guests() == {}
    for it in clients:
        it.close()


def test_comings_of_all_seats_have_a_pace(lend):
    lender = lend(64)
    names, begin = add_all(lender), time.monotonic()
    with short_turns(lender):
        while time.monotonic() < begin + FLAPPING:
            for it in names:
                with contextlib.suppress(BlockingIOError):
                    connect(lender, it, blocks=False).close()
    came = sum(clients_of(lender).values())
    print(f"{came} processes were started")
    assert came <= AHEAD + A_SECOND * (time.monotonic() - begin) + 1


def asking():
    """Reports of a process that asks for room and withdraws that, again and again."""
    for number in itertools.count(1):
        yield bytes(
            Message(
                version=VERSION, kind=TELL_REPORT, holds=1, waits=WAIT_ROOM, wait=number, wanted=1
            )
        )
        yield bytes(Message(version=VERSION, kind=TELL_REPORT, holds=1, wait=number))


def talking():
    """Words of a process."""
    return itertools.repeat(bytes(Message(version=VERSION, kind=TELL_REMARK, words=b"noise")))


@pytest.mark.parametrize("messages", (asking, talking))
def test_processes_that_flood_leave_turns_short(lend, messages):
    lender = lend(64, *STRICT)
    listens = [Listens(lender.folder, f"flood-{it}") for it in range(FLOODS)]
    for it in range(FLOODS):
        lender.demand(f"add flood-{it} strict=1")
    channels = [it.accept() for it in listens]
    said = [messages() for _ in channels]
    for it in channels:
        it.setblocking(False)
    with short_turns(lender):
        end, count = time.monotonic() + FLOODING, 0
        while time.monotonic() < end:
            for channel, its in zip(channels, said):
                with contextlib.suppress(BlockingIOError):
                    count += channel.send(next(its)) > 0
    print(f"{count} messages were sent")
    for it in listens:
        it.end()
