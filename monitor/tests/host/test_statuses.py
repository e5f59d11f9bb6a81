"""A status of many guests: it is made in parts between the turns of the lender's loop, and says
what was at one moment."""

import contextlib
import json
import socket

import pytest
from bigvasta.connection import Connection
from tenants import PAGE, eventually, go_on, status_of, stop
from test_turns import asks, short_turns

# Guests of a lender, whose status takes the time of many turns; statuses that are asked for.
GUESTS, STATUSES = 250, 8


@pytest.fixture
def many(lend):
    """A lender with many guests, whose clients have yet to come."""
    lender = lend(64, "--floor", "0", "--guests", str(GUESTS))
    for it in range(GUESTS):
        lender.add(f"guest-{it:03}")
    return lender


class Asks:
    """A client that was served before."""

    def __init__(self, lender, name):
        self.own = socket.socket(socket.AF_UNIX)
        self.own.connect(f"{lender.folder}/{name}")
        self.lines = self.own.makefile("rb")
        self.own.send(asks(b"log"))
        self.read()

    def read(self):
        """Returns the next answer."""
        return json.loads(self.lines.readline())


@contextlib.contextmanager
def stands_still(lender):
    """The lender stands still meanwhile."""
    stop(lender.process.pid)
    eventually(lambda: status_of(lender.process.pid)["State"].startswith("T"))
    yield
    go_on(lender.process.pid)


def names_in(status):
    """Returns the names of its guests, of which the host says how many there are."""
    names = [it["name"] for it in status["guests"]]
    assert len(names) == status["host"]["guests"] and sorted(set(names)) == names
    return names


def set_floor(pages):
    """Returns a request that sets the floor."""
    fields = {"version": 1, "request": "floor", "bytes": pages * PAGE}
    return json.dumps(fields).encode() + b"\n"


def test_statuses_of_many_guests_leave_turns_short(many):
    with short_turns(many), Connection(f"{many.folder}/.control") as it:
        for floor in range(STATUSES):
            it.ask("floor", bytes=floor * PAGE)
            status = it.ask("status")
            assert status["host"]["floor"] == floor * PAGE and len(names_in(status)) == GUESTS


def test_who_sends_no_more_is_told_the_whole(many):
    client = Asks(many, ".status")
    with stands_still(many):
        client.own.send(asks(b"status") * 2)
        client.own.shutdown(socket.SHUT_WR)
    assert [len(names_in(client.read())) for _ in range(2)] == [GUESTS] * 2
    assert client.lines.read() == b""


def test_a_guest_that_goes_meanwhile_is_in_the_whole_status(many):
    client = Asks(many, ".status")
    with stands_still(many):
        client.own.send(asks(b"status"))
        many.process.stdin.write(b"remove guest-100\n")
        many.process.stdin.flush()
    assert "guest-100" in names_in(client.read())
    eventually(lambda: "guest-100" not in names_in(many.status()))


def test_who_asks_meanwhile_is_told_of_a_change_that_was_asked_for(many):
    changes, looks = Asks(many, ".control"), Asks(many, ".status")
    with stands_still(many):
        looks.own.send(asks(b"status"))
        changes.own.send(set_floor(7) + asks(b"status"))
    assert changes.read()["ok"]
    assert changes.read()["host"]["floor"] == 7 * PAGE
    names_in(looks.read())
