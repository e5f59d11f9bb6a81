"""A seat over its clients: who comes next begins with nothing of the one before; who is leaving
keeps its place; and who has just as many pages as there are has room."""

import pytest
from played import WAIT_ROOM, Played
from tenants import AVAILABLE, FREE, eventually, go_on, process_of, status_of, stop
from test_limits_that_change import files_of
from test_strict import GIVEN, STRICT, Later
from test_turns import connect
from vhost_client import Client
from waiting import PATIENCE

LOOSE = tuple(it for it in STRICT if it != "--strict")

# The frames of a MiB, pages of a guest, and guests that may be leaving at once: so few that all of
# them are before the first is killed, as it doesn't leave in five seconds.
FRAMES, ALL, MOST_GUESTS = 256, 128, 4

# What a seat keeps of its clients: how many came, and what the host couldn't write. Times differ,
# and what processes count themselves.
KEPT, DIFFER = ("clients", "limit_failures"), (
    "name",
    "socket",
    "process",
    "waits",
    "silent",
    "process_silent",
    "told",
    "kicks",
    "chains",
    "statistics",
)

# A period of which four, in which a guest is silent, are longer than a wait.
SLOW = ("--period", "6000")


def shown(lender, name):
    """Returns all that a lender says of a guest, by a line and by its control socket, but for what
    differs or is kept."""
    line = lender.guests()[name]
    its = next(it for it in lender.status()["guests"] if it["name"] == name)
    return {
        it: value
        for it, value in (line | its | its["counters"]).items()
        if it not in (*KEPT, *DIFFER, "counters")
    }


def agree(lender):
    """Waits until the guests `a` and `new` are shown with the same."""
    eventually(
        lambda: shown(lender, "a") == shown(lender, "new"),
        lambda: sorted(shown(lender, "a").items() ^ shown(lender, "new").items(), key=str),
    )


def live(lender, come, strict):
    """The life of a first client, which has given pages, and taken some unasked."""
    first = come(lender, "a", {FREE: 100, AVAILABLE: 90})
    first.give(GIVEN[:50])
    lender.become("a", ballooned=50)
    first.take(GIVEN[:20])
    lender.become("a", ballooned=30, **({"waits": "nothing"} if strict else {"taken": 20}))
    if strict:
        first.fill()
        lender.become("a", cooperates=0)
    first.leave()
    lender.become("a", here=0)


@pytest.mark.parametrize("options", (STRICT, LOOSE), ids=("strict", "loose"))
def test_who_comes_next_has_nothing_of_the_client_before(lend, come, options):
    """Each number is that of a client at a new seat, from when it comes until it has told its
    statistics."""
    lender = lend(4, *options, *SLOW)
    lender.demand("add a overhead=0 most=0"), lender.demand("add new overhead=0 most=0")
    live(lender, come, options == STRICT)
    agree(lender)
    clients = [Client(f"{lender.folder}/{it}") for it in ("a", "new")]
    for it in clients:
        it.negotiate()
    agree(lender)
    for it in clients:
        it.hand_over_memory()
    agree(lender)
    for it in clients:
        it.leave()
    for it in ("a", "new"):
        lender.become(it, here=0)
    guests = [come(lender, it, {FREE: 70}) for it in ("a", "new")]
    agree(lender)
    for it in guests:
        it.leave()


def test_who_comes_after_one_that_took_pages_may_be_asked_at_once(lend, come):
    """The one before had taken some of what it gave, and was to be asked for no more for a
    while."""
    lender = lend(4, *LOOSE, *SLOW)
    lender.demand("add a overhead=0 most=0")
    live(lender, come, False)
    come(lender, "a", {FREE: 70})
    assert lender.guests()["a"]["spare"] == 70


def test_a_client_that_comes_after_one_that_waited_waits_for_its_own(lend, come):
    lender = lend(1, *STRICT)
    others = [come(lender, it, {FREE: 0}) for it in "bc"]
    lender.demand("add a")
    for _ in range(2):
        client = Client(f"{lender.folder}/a")
        client.negotiate()
        comes = Later(client.hand_over_memory)
        lender.become("a", waits="room", lent=0)
        client.socket.shutdown(2)
        lender.become("a", here=0, waits="nothing", lent=0)
        comes.join(20)
        client.leave()
    others[0].leave()
    come(lender, "a", {FREE: 0})
    assert lender.counters()["lent"] == FRAMES


def test_the_place_of_a_guest_that_is_leaving_is_given_to_nobody(lend, come):
    """Its loan stays until its process has ended."""
    lender = lend(1, *STRICT)
    come(lender, "a", {FREE: 100})
    process = process_of(lender, "a")
    keeper = int(status_of(process)["PPid"])
    stop(process), stop(keeper)
    lender.demand("remove a")
    come(lender, "b", {FREE: 100})
    assert [lender.counters()[it] for it in ("lent", "held_kib")] == [FRAMES, 4 * FRAMES]
    client = Client(lender.add("c"))
    client.negotiate()
    comes = Later(client.hand_over_memory)
    assert comes.waits()
    lender.become("c", waits="room", lent=0)
    go_on(process), go_on(keeper)
    comes.ends()
    lender.become("c", lent=ALL)
    assert lender.counters()["lent"] == FRAMES
    client.leave()


def test_a_guest_that_is_leaving_is_told_so_until_it_ends(lend, come):
    """The first time its process may have no room for it; nobody waits for that."""
    lender = lend(1, *STRICT)
    files = files_of(lender.process.pid)
    a = Played(lender, "a", pages=ALL)
    lender.demand("remove a")
    eventually(lambda: a.told_to_leave >= 3)
    a.leave()
    eventually(lambda: files_of(lender.process.pid) == files)
    assert lender.counters()["lent"] == 0


def test_a_client_that_waits_at_a_guest_that_is_removed_leaves_no_file(lend):
    """The guest's client is at work, and another one waits for it to go."""
    lender = lend(1, *LOOSE)
    lender.guests()
    files = files_of(lender.process.pid)
    for name in ("a", "b", "c"):
        client = Client(lender.add(name))
        client.start()
        lender.become(name, ready=1)
        waits = connect(lender, name)
        waits.settimeout(PATIENCE)
        lender.demand(f"remove {name}")
        assert waits.recv(1) == b""
        client.leave(), waits.close()
    eventually(
        lambda: files_of(lender.process.pid) == files,
        lambda: f"{files_of(lender.process.pid)} files, where there were {files}",
    )


def test_as_many_guests_as_there_are_seats_may_be_leaving(lend):
    lender, played = lend(64, *LOOSE, "--guests", str(MOST_GUESTS)), []
    for number in range(MOST_GUESTS):
        played.append(Played(lender, f"g{number}", pages=1))
        lender.demand(f"remove g{number}")
    played.append(Played(lender, "last", pages=1))
    assert (
        lender.ask("remove last") == "error: as many guests are leaving as there may be: --guests"
    )
    played.pop(0).leave()
    eventually(lambda: lender.ask("remove last") == "ok")
    for it in played:
        it.leave()


@pytest.mark.parametrize("holds", (1, 0), ids=("strict", "loose"))
def test_a_guest_of_exactly_the_budget_has_room_and_one_page_more_has_none(lend, holds):
    lender = lend(1, *(STRICT if holds else LOOSE))
    larger = Played(
        lender, "larger", holds=holds, ready=0, waits=WAIT_ROOM, wait=1, wanted=FRAMES + 1
    )
    eventually(
        lambda: f"refused larger: no room for {4 * (FRAMES + 1)}K: 4K are missing" in lender.said(),
        lender.said,
    )
    larger.leave()
    exact = Played(lender, "exact", holds=holds, ready=0, waits=WAIT_ROOM, wait=1, wanted=FRAMES)
    lender.become("exact", pages=FRAMES, lent=FRAMES)
    exact.leave()


def test_a_guest_of_exactly_the_budget_waits_until_nobody_else_has_any(lend, come):
    lender = lend(1, *STRICT)
    a = come(lender, "a", {FREE: 100})
    exact = Played(lender, "exact", ready=0, waits=WAIT_ROOM, wait=1, wanted=FRAMES)
    lender.become("exact", waits="room", pages=0, lent=0)
    a.leave()
    lender.become("exact", pages=FRAMES, lent=FRAMES)
    exact.leave()
