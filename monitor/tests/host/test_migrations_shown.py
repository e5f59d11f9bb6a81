"""Guests that migrate, as a host shows them: where, since when, and for how long they did."""

import os
import re
import time

from bigvasta.connection import Connection
from moving import ALL, EACH_WAY, WAYS, continues, with_pages
from played import Played
from tenants import eventually
from test_strict import GIVEN, STRICT
from vhost_logs import log_base, log_file, set_logging
from vhost_moves import FINE, LOAD, WELL, ask, comes, load, saved, stopped

NONE, OUTGOING, INCOMING = "none", "outgoing", "incoming"


def shown(lender):
    """Returns what is shown of a guest's migration, and how many guests migrate."""
    with Connection(f"{lender.folder}/.control") as control:
        answer = control.ask("status")
    guest = answer["guests"][0]
    return guest["migration"], guest["migrating"], answer["host"]["migrating"]


def becomes(lender, word):
    """Waits until a guest migrates like this; returns for how long it has."""
    eventually(lambda: shown(lender)[0] == word, lambda: f"{shown(lender)}, and not {word}")
    _, seconds, count = shown(lender)
    assert count == (word != NONE) and (seconds > 0 or word == NONE or shown(lender)[1] > 0)
    assert word != NONE or seconds == 0
    return seconds


def said(lender):
    """Returns what the host has said of migrations, but for their seconds."""
    lender.hear()
    return [re.sub(r"[\d.]+ s", "N s", it) for it in lender.said() if "migration" in it]


def logs(client, on):
    """Has a client log what its device writes, or no longer."""
    if on:
        assert log_base(client, log_file()) == bytes(8)
    set_logging(client, on)


@EACH_WAY
def test_a_guest_that_leaves(migrating, lend, way):
    """As long as what its device writes is logged; whichever process or lender takes it over."""
    lender, client = migrating()
    becomes(lender, NONE)
    logs(client, True)
    before = becomes(lender, OUTGOING)
    lender = WAYS[way](lender, lend)
    eventually(lambda: becomes(lender, OUTGOING) > before or way == "lender")
    logs(client, False)
    becomes(lender, NONE)
    begun, ended = (f"a: its migration (outgoing) {it}" for it in ("begins", "has ended after N s"))
    eventually(lambda: [it[: len(ended)] for it in said(lender)] == [begun, ended], lender.said)


def test_how_long_a_migration_took(migrating):
    """No less than was shown before its end, and no more than has gone by; said in tenths."""
    lender, client = migrating()
    begun = time.monotonic()
    logs(client, True)
    eventually(lambda: becomes(lender, OUTGOING) > 0.2)
    least = becomes(lender, OUTGOING)
    logs(client, False)
    becomes(lender, NONE)
    eventually(lambda: len(said(lender)) == 2)
    took = float(re.search(r"has ended after ([\d.]+) s", "\n".join(lender.said()))[1])
    assert least - 0.1 < took < time.monotonic() - begun + 0.1


def test_a_guest_that_was_saved_and_has_gone(migrating):
    lender, client = migrating()
    logs(client, True)
    stopped(client)
    assert saved(client)
    becomes(lender, OUTGOING)
    client.socket.close()
    lender.become("a", here=0)
    becomes(lender, NONE)


@EACH_WAY
def test_a_guest_that_comes(migrating, lend, way):
    """From what it is said to come with, until its queues run."""
    source, client = migrating()
    with_pages(source, client, GIVEN[:8])
    bases, data = stopped(client), saved(client)
    becomes(source, NONE)
    lender, other = migrating(starts=False)
    becomes(lender, NONE)
    assert comes(other, 8, ALL) == FINE
    becomes(lender, INCOMING)
    lender = WAYS[way](lender, lend)
    assert load(other, data)
    becomes(lender, INCOMING)
    continues(other, client, bases)
    becomes(lender, NONE)


def test_a_device_that_comes_alone(migrating):
    """Its VMM says nothing before: it comes as its device does."""
    _, client = migrating()
    bases, data = stopped(client), saved(client)
    lender, other = migrating(starts=False)
    theirs, ours = os.pipe()
    assert ask(other, theirs, LOAD) == WELL
    becomes(lender, INCOMING)
    os.close(ours)
    assert not load(other, b"")
    becomes(lender, NONE)
    assert load(other, data)
    becomes(lender, INCOMING)
    continues(other, client, bases)
    becomes(lender, NONE)


def test_events_of_a_migration(migrating):
    lender, client = migrating()
    with Connection(f"{lender.folder}/.control") as follower:
        events = (it for it in follower.follow() if it["event"] == "migration")
        for on, word in ((True, OUTGOING), (False, NONE)):
            logs(client, on)
            event = next(events)
            assert (event["guest"], event["migration"]) == ("a", word)


# Migrations that a process says begin and end: more than the lender says of a guest in a second.
MANY = 60


def test_a_flood_of_migrations_hides_none_of_the_lenders_words(lend):
    lender = lend(1, *STRICT)
    a = Played(lender, "a", pages=ALL)
    for number in range(MANY):
        a.report(migration=number % 2 + 1)
    eventually(lambda: "a: further lines of this second are left out" in lender.said(), lender.said)
    a.report(pages=ALL + 1)
    words = "refused a: its process reports pages that nobody has granted"
    eventually(lambda: lender.hear() or words in lender.said(), lender.said)
    assert len(said(lender)) < MANY
    a.channel.close()
