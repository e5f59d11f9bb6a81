"""A guest's process that ends amid a migration, and another one that resumes it: each write is in
the log, and the device is saved and loaded, the second time where a part of it was amid."""

import os

import pytest
from tenants import PAGES
from test_anew import LEAST_CUTS, MOST_CUTS, WIDE, is_found, serve
from vhost_client import INFLATE, Client
from vhost_logs import log_base, log_file, logged, page_of_used, set_logging
from vhost_moves import PROTOCOL, load, saved, stopped

# Lives in which a transfer may have to be restarted: the calls of a turn in which a part goes.
MOST_RESTARTED = 40

# Lives are cut off in each third place.
EACH = 3


def try_twice(act):
    """Has a device be saved, or loaded, once or twice; returns what came of it, and how often that
    failed."""
    for failed in range(2):
        try:
            done = act()
        except (AssertionError, BrokenPipeError):
            done = None
        if done:
            return done, failed
    raise AssertionError("it isn't done the second time")


def migrate(lender, name):
    """A life with a migration that is cancelled at its end: each write is in the log, and the
    device is saved, and loaded again."""
    client = Client(lender.add(name), lambda: lender.said()[-4:])
    client.start_by_events(protocol=PROTOCOL)
    serve(client, INFLATE, [[PAGES, PAGES + 1]])
    file = log_file()
    assert log_base(client, file) == bytes(8)
    set_logging(client, True)
    serve(client, INFLATE, [[PAGES + 2]])
    assert page_of_used(client, INFLATE) in logged(file), "a used ring isn't logged"
    bases = stopped(client)
    data, unsaved = try_twice(lambda: saved(client))
    _, unloaded = try_twice(lambda: load(client, data))
    client.go_on(bases)
    client.called(INFLATE)
    serve(client, INFLATE, [[PAGES + 3]])
    lender.become(name, ready=1, ballooned=4)
    assert client.holes() == [*range(PAGES, PAGES + 4)]
    os.close(file)
    client.leave()
    lender.demand(f"remove {name}")
    restarted = [
        it for it in lender.said() if it.startswith(f"{name}: ") and "to be restarted" in it
    ]
    assert unsaved + unloaded == len(restarted), f"{unsaved} and {unloaded} failed: {restarted}"
    return restarted


def migrate_until_whole(lender, places):
    """Such lives that are cut off in one of these places each, until one isn't; returns the last
    place, and in how many of them a transfer had to be restarted."""
    restarted = 0
    for place in places:
        restarted += len(migrate(lender, f"cut-{place}"))
        if not [it for it in lender.said() if f"cut-{place}: its process has ended by" in it]:
            break
    return place, restarted


def migrate_everywhere(lender):
    """Cuts lives off in each third place; where these miss the few calls of a transfer, in the
    places between them, too."""
    for first in range(1, 1 + EACH):
        last, restarted = migrate_until_whole(lender, range(first, MOST_CUTS, EACH))
        if restarted > 0:
            break
    return last, restarted


@pytest.mark.timeout(900)
def test_a_migration_that_is_cut_off_anywhere(lend, cutting):
    lender = lend(64, *WIDE, "--strict", "--lines", "10000", "--program", cutting)
    places, restarted = migrate_everywhere(lender)
    assert LEAST_CUTS < places < MOST_CUTS and 0 < restarted < MOST_RESTARTED, (places, restarted)


# Of a migration.
WRONG_MOVES = ("no-log", "no-load", "any-part")


@pytest.mark.timeout(900)
@pytest.mark.parametrize(
    "wrong", [pytest.param(it, marks=pytest.mark.wrong(it)) for it in WRONG_MOVES]
)
def test_a_migration_that_goes_on_wrongly_is_found(lend, cutting, wrong, monkeypatch):
    with is_found(wrong, monkeypatch):
        lender = lend(64, *WIDE, "--strict", "--lines", "10000", "--program", cutting)
        places, restarted = migrate_everywhere(lender)
        assert restarted > 0, "no transfer had to be restarted"
