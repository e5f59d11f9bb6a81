"""Who only asks changes nothing: nothing is decided again by that."""

import time

# Seconds in which a host has decided on what has changed.
DECIDED = 0.5


def decisions(host):
    """Returns how often a host has decided, once it has on what came before."""
    time.sleep(DECIDED)
    return host.status()["counters"]["decisions"]


def test_what_is_asked_for_is_as_it_was(host):
    host.ask("add", name="a")
    before = decisions(host)
    host.ask("floor", bytes=0)
    changed = decisions(host)
    for request in ({"request": "guest", "name": "a"}, {"request": "budget"}, {"request": "floor"}):
        host.ask(**request)
    assert before < changed == decisions(host)
