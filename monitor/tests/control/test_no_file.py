"""A client of a control socket that comes as the host has no file left for it: it waits, others are
served meanwhile, and the host says so ten times a second at most, whatever else it has to do."""

import json
import os
import resource
import time

import pytest
from hosts import Host, Raw, say
from waiting import eventually, patience_from_now

# How often a host tries again in a second.
TRIES = 10


def files_of(process):
    """Returns how many files a process has open."""
    return len(os.listdir(f"/proc/{process}/fd"))


@pytest.fixture
def host(program, folder):
    """A host that says all that it has to say, and ends well."""
    words = ("--budget", "480", "--lines", "100000", "--period", "60000")
    it = Host(program, folder, str(folder), *words)
    it.lines.next(patience_from_now())
    yield it
    assert it.end() == 0, it.said()


@pytest.mark.parametrize("alone", (False, True), ids=("beside-another", "alone"))
@pytest.mark.parametrize("name", ("control", "status"))
def test_a_client_waits_until_there_is_a_file_for_it(host, name, alone):
    process, path = host.process.pid, f"{host.folder}/.{name}"
    other, had = Raw(path), files_of(process) + 1
    assert other.answer(say(request="status", id=1))["id"] == 1
    if alone:
        other.close()
        eventually(lambda: files_of(process) == had - 1)
    limits = resource.prlimit(process, resource.RLIMIT_NOFILE)
    resource.prlimit(process, resource.RLIMIT_NOFILE, (files_of(process), limits[1]))
    client, words = Raw(path), f"a client of the {name} socket can't come: Too many open files"
    client.socket.sendall(say(request="status", id=2) + b"\n")
    eventually(lambda: words in host.said(), host.said)
    begin, before = time.monotonic(), host.said().count(words)
    eventually(lambda: host.said().count(words) >= before + TRIES)
    assert host.said().count(words) - before <= TRIES * (time.monotonic() - begin) + 1
    assert alone or other.answer(say(request="status", id=3))["id"] == 3
    resource.prlimit(process, resource.RLIMIT_NOFILE, limits)
    assert json.loads(client.lines.readline())["id"] == 2
    counted = host.status()[name]
    assert (counted["dropped"], counted["turned_away"]) == (0, 0)
    client.close(), other.close()
