"""A guest's process that is killed between any two system calls of its turns: another one continues
with what was kept, and the client notices nothing."""

import array
import itertools
import os
import socket
import struct

import pytest
from system_calls import calls_of
from tenants import has_ended, process_of
from test_anew import is_told, serve
from test_between_looks import SELDOM
from vhost_client import DEFLATE, GET_QUEUE_NUM, INFLATE, PAGE, QUEUES, SET_VRING_CALL, Client
from waiting import eventually

QUIET = (*SELDOM, "--strict", "--lines", "10000")

# Places that a turn has at least, before and after each call: of requests that wait for grants, and
# of messages.
LEAST_PLACES, LEAST_OF_MESSAGES = 40, 20

# What is given, and taken back.
REQUESTS = [[0x180, 0x181], [0x184]]
PAGES = [page for it in REQUESTS for page in it]


@pytest.fixture
def guest(lend):
    """A strict guest."""
    lender = lend(64, *QUIET)
    client = Client(lender.add("a"), lambda: lender.said()[-4:])
    yield lender, client
    assert lender.counters()["gone"] == 0
    client.leave()


def kill_everywhere(lender, act):
    """Acts again and again, while the process is killed at one place after the other, until there
    is none; returns how many there are."""
    for place in itertools.count(1):
        process = process_of(lender, "a")
        with calls_of(process, place):
            act()
        if not has_ended(process):
            return place
        eventually(lambda: lender.guests()["a"]["process"] not in (0, process))


@pytest.mark.timeout(900)
def test_requests_and_grants(guest):
    """Of a client whose kicks are messages."""
    lender, client = guest
    client.start()

    def act():
        serve(client, INFLATE, REQUESTS)
        assert client.holes() == PAGES
        serve(client, DEFLATE, REQUESTS)
        for it in PAGES:
            client.write(it * PAGE, b"\xee" * PAGE)

    places = kill_everywhere(lender, act)
    assert places > LEAST_PLACES, f"{places} places"
    lender.become("a", ballooned=0, waits="nothing")
    assert not [it for it in lender.said() if "unasked" in it]


def put(client, request, body=b"", files=()):
    """Sends a message whose answer is read later."""
    control = [(socket.SOL_SOCKET, socket.SCM_RIGHTS, array.array("i", files))] if files else []
    client.socket.sendmsg([struct.pack("<III", request, 9, len(body)) + body], control)


def files_of(lender):
    """Returns how many files the guest's process has."""
    return len(os.listdir(f"/proc/{process_of(lender, 'a')}/fd"))


@pytest.mark.timeout(900)
def test_messages_that_are_read_at_once(guest):
    """The file of the second one stays with it, and the one before is closed."""
    lender, client = guest
    client.start_by_events()

    def act():
        os.close(client.calls[INFLATE])
        client.calls[INFLATE] = os.eventfd(0, os.EFD_NONBLOCK)
        put(client, GET_QUEUE_NUM)
        put(client, SET_VRING_CALL, struct.pack("<Q", INFLATE), [client.calls[INFLATE]])
        put(client, GET_QUEUE_NUM)
        answers = [client.receive() for _ in range(3)]
        queues = (GET_QUEUE_NUM, struct.pack("<Q", QUEUES))
        assert answers == [queues, (SET_VRING_CALL, bytes(8)), queues]

    act()
    count = files_of(lender)
    places = kill_everywhere(lender, act)
    assert places > LEAST_OF_MESSAGES, f"{places} places"
    assert files_of(lender) == count
    is_told(client, INFLATE)
