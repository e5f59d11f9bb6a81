"""How a guest's wait for memory ends: what followers are told, and what the host counts. Guests
have 128 pages."""

import threading

import pytest
from bigvasta.connection import Connection
from hosts import Host
from vhost_client import DEFLATE, INFLATE, PAGE, REGIONS, Client
from waiting import eventually, patience_from_now

GUEST = 128 * PAGE

# Pages that a driver gives: of its second region, which has no rings.
GIVEN = [REGIONS[1][0] // PAGE + it for it in range(20)]


@pytest.fixture
def host(program, folder):
    """A strict host, whose budget is that of one guest."""
    it = Host(program, folder, str(folder), "--budget", "480", "--strict")
    it.lines.next(patience_from_now())
    it.ask("floor", bytes=0)
    it.ask("budget", bytes=GUEST)
    yield it
    assert it.end() == 0, it.said()


@pytest.fixture
def heard(host):
    """Returns the next event about a guest's waits for something."""
    with Connection(host.control) as follower:
        events = follower.follow()
        yield lambda guest, what: next(
            it for it in events if (it.get("guest"), it.get("waits_for")) == (guest, what)
        )


class Coming(Client):
    """A guest whose memory waits for room."""

    def __init__(self, host, name, **fields):
        host.ask("add", name=name, **fields)
        super().__init__(f"{host.folder}/{name}")
        self.negotiate()
        self.thread = threading.Thread(target=self.come, daemon=True)
        self.thread.start()
        eventually(lambda: host.guest(name)["waits_for"] == "room")

    def come(self):
        """Hands over its memory, until that has room or the host closes its socket."""
        try:
            self.hand_over_memory()
        except (OSError, AssertionError):
            pass

    def leave(self):
        """Goes, also while it waits."""
        self.socket.shutdown(2)
        self.thread.join()
        super().leave()


def ends(host):
    """Returns how many waits have ended, by how."""
    measures = host.status()["measures"]
    return {"granted": sum(measures["waits"]["counts"]), **measures["ungranted"]}


def end_by_leaving(_, guest):
    guest.leave()


def end_by_a_smaller_budget(host, _):
    host.ask("budget", bytes=GUEST - PAGE)


def end_by_removal(host, _):
    host.ask("remove", name="b", force=True)


def end_by_another(host, _):
    """Another guest has its name, maybe before a look: it has waited for nothing."""
    with Connection(host.control) as it:
        it.ask("remove", name="b", force=True), it.ask("add", name="b")


def end_by_room(host, _):
    host.ask("budget", bytes=2 * GUEST)


# What ends a guest's wait for room, how that is called, and why the guest has gone.
ENDS = (
    (end_by_leaving, "withdrawn", "left"),
    (end_by_a_smaller_budget, "refused", "refused"),
    (end_by_removal, "withdrawn", "removed"),
    (end_by_another, "withdrawn", "removed"),
    (end_by_room, "granted", None),
)


@pytest.mark.parametrize("act, how, gone", ENDS)
def test_a_wait_for_room_that_ends_without_a_grant_is_no_grant(host, arrive, heard, act, how, gone):
    arrive("a")
    eventually(lambda: host.guest("a")["answers"])
    late = Coming(host, "b")
    before = ends(host)
    assert heard("b", "room")["event"] == "waits"
    eventually(lambda: host.guest("b")["waits"] > 0.1)
    act(host, late)
    end = heard("b", "room")
    assert end["event"] == how and end["waits"] > 0
    eventually(lambda: ends(host) == before | {how: before[how] + 1}, lambda: (before, ends(host)))
    eventually(
        lambda: {why: count for why, count in host.status()["measures"]["gone"].items() if count}
        == ({gone: 1} if gone else {})
    )
    if act is not end_by_leaving:
        late.leave()


def test_a_deflate_whose_guest_goes_is_no_grant(host, arrive, heard):
    guest = arrive("a")
    eventually(lambda: host.guest("a")["answers"])
    host.ask("guest", name="a", target=len(GIVEN) * PAGE)
    guest.client.post_pages(INFLATE, GIVEN)
    eventually(lambda: host.guest("a")["loan"] == GUEST - len(GIVEN) * PAGE)
    host.ask("budget", bytes=PAGE)
    before = ends(host)
    guest.client.post_pages(DEFLATE, GIVEN)
    assert heard("a", "deflate")["event"] == "waits"
    guest.leave()
    assert heard("a", "deflate")["event"] == "withdrawn"
    assert ends(host) == before | {"withdrawn": before["withdrawn"] + 1}


def test_each_wait_of_a_guest_is_told(host, arrive, heard):
    guest, pages = arrive("a"), 5
    eventually(lambda: host.guest("a")["answers"])
    loan = GUEST - len(GIVEN) * PAGE
    host.ask("budget", bytes=loan)
    guest.client.post_pages(INFLATE, GIVEN)
    eventually(lambda: host.guest("a")["loan"] == loan)
    for first in range(0, 3 * pages, pages):
        guest.client.post_pages(DEFLATE, GIVEN[first : first + pages])
        assert heard("a", "deflate")["event"] == "waits"
        loan += pages * PAGE
        host.ask("budget", bytes=loan)
        assert heard("a", "deflate")["event"] == "granted"
