"""Tests of requests that lie in pages which the host doesn't hold: they read as zeros, and aren't
held then either; or which are gone with their file's end."""

import concurrent.futures
import ctypes
import os

import pytest
from vhost_client import DEFLATE, INFLATE, NEXT, PAGE, PAGES_OF_REGION, REGIONS, STATISTICS
from vhost_demands import demand_refused
from waiting import eventually

# Times that a request is posted while its pages become holes.
RACES = 200

# Bytes of a buffer of each queue, and how many buffers there are: each is in a page of its own.
BUFFERS = {INFLATE: (4, PAGES_OF_REGION), DEFLATE: (4, PAGES_OF_REGION), STATISTICS: (10, 1)}

# Discards bytes of a file whose length stays (fallocate(2)).
PUNCH_HOLE = 3


def held(client):
    """Returns how many KiB of the second region the host holds."""
    return os.fstat(client.files[1]).st_blocks // 2


def punch(client):
    """Makes a hole of each page of the second region, one after the other."""
    library = ctypes.CDLL(None, use_errno=True)
    for page in range(PAGES_OF_REGION):
        at = ctypes.c_long(page * PAGE)
        assert library.fallocate(client.files[1], PUNCH_HOLE, at, ctypes.c_long(PAGE)) == 0


def fill(client):
    """Has the host hold each page of the second region."""
    for page in range(PAGES_OF_REGION):
        os.pwrite(client.files[1], bytes(1), page * PAGE)


def post(client, number):
    """Posts a request of zeros, each of whose buffers is in another page of the second region."""
    length, count = BUFFERS[number]
    for head in range(count):
        flags, follows = (NEXT, head + 1) if head + 1 < count else (0, 0)
        client.describe(number, head, REGIONS[1][0] + head * PAGE, length, flags, follows)
    client.publish(number, 0)
    client.kick(number)


@pytest.fixture
def begin(serve_well):
    """Returns a client whose driver is ready, with rings of as many buffers as there are pages."""

    def make():
        client = serve_well()
        client.start(size=4 * PAGES_OF_REGION)
        return client

    return make


@pytest.mark.parametrize("number", BUFFERS, ids=("inflate", "deflate", "statistics"))
def test_a_request_in_holes(begin, number):
    client = begin()
    punch(client)
    assert held(client) == 0
    post(client, number)
    if number == STATISTICS:
        eventually(lambda: client.counter("statistics") == 1, "no statistics are heard")
    else:
        assert client.told() == number
        named = client.counter("inflated" if number == INFLATE else "deflated")
        assert named == PAGES_OF_REGION
    assert held(client) == 0


def test_a_request_whose_pages_become_holes(begin):
    client = begin()
    with concurrent.futures.ThreadPoolExecutor() as aside:
        for _ in range(RACES):
            fill(client)
            punched = aside.submit(punch, client)
            post(client, DEFLATE)
            punched.result()
            assert client.told() == DEFLATE
            assert held(client) == 0


@pytest.mark.parametrize("page", (0, 1, PAGES_OF_REGION - 1))
def test_a_request_past_the_end_of_its_file(serve_ready, page):
    client = serve_ready()
    client.describe(INFLATE, 0, REGIONS[1][0] + page * PAGE, 4)
    client.publish(INFLATE, 0)
    os.ftruncate(client.files[1], page * PAGE)
    client.kick(INFLATE)
    demand_refused(client, "its memory's file has been cut off")
