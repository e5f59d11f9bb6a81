"""No request leaves a file open in the host, whether it is done or refused."""

import contextlib
import os

from bigvasta.statuses import Refused
from keeping import MIB
from protocol import requests
from waiting import eventually

# Each request but an upgrade, which becomes another program: what is asked of a host with a file
# and a folder of its changes, in this order, and what it refuses.
ASKED = {
    "status": ({}, {"name": "web-1"}),
    "guest": ({"name": "web-1", "most": 90 * MIB}, {"name": "web-1", "target": 0}),
    "add": ({"name": "new"}, {"name": "web-1"}),
    "renew": ({"name": "none"}, {"name": "new"}),
    "remove": ({"name": "new"}, {"name": "none"}),
    "budget": ({"bytes": 300 * MIB}, {"bytes": 0}),
    "floor": ({"bytes": 3 * MIB}, {"bytes": -1}),
    "log": ({}, {"limit": 0}),
    "changes": ({}, {"limit": 0}),
    "config": ({}, {"name": "web-1"}),
    "events": ({}, {"since": 0}),
    "reload": ({}, {"name": "web-1"}),
}


def files(host):
    """Returns how many files a host has open."""
    return len(os.listdir(f"/proc/{host.process.pid}/fd"))


def ask_all(host):
    """Asks a host for all, each over a connection of its own."""
    for name, bodies in ASKED.items():
        for fields in bodies:
            with contextlib.suppress(Refused):
                host.ask(name, **fields)


def test_no_request_leaves_a_file_open(kept):
    host = kept.host
    ask_all(host)
    eventually(lambda: host.status()["control"]["clients"] == 1)
    before = files(host)
    for _ in range(3):
        ask_all(host)
    eventually(lambda: host.status()["control"]["clients"] == 1)
    # Before, one that is closed in a moment may have been open still.
    eventually(lambda: files(host) <= before, lambda: f"{files(host)} files, and {before} before")


def test_each_request_is_asked():
    assert set(ASKED) | {"upgrade"} == set(requests())
