"""What the tests of a host that an operator runs have in common: its programs, a host in a folder
of its own, and its guests."""

import os

import linux_kit
import pytest
from hosts import Answering, Host
from keeping import Kept
from planner import library, shared
from waiting import patience_from_now


PROGRAMS = (
    "checked/vhost_user_host",
    "older/vhost_user_host",
    "wrong-checked/vhost_user_host",
    "clocked/vhost_user_host",
    "plain/vhost_user_balloon",
    "libvb.so",
)
__all__ = ("library", "shared")


@pytest.fixture(scope="session")
def program():
    """The host's program, beside that of its guests: one that the environment names, or one that is
    built with the compiler's checks."""
    return os.environ.get("HOST_PROGRAM") or linux_kit.built("checked/vhost_user_host")


@pytest.fixture(scope="session")
def wrong_program():
    """The host that is wrong in the way that its environment's CONTROL_WRONG names, beside the
    program of its guests."""
    return linux_kit.built("wrong-checked/vhost_user_host")


@pytest.fixture(autouse=True)
def nothing_left():
    """Ends the hosts that a test has left, as it failed."""
    yield
    for it in Host.started:
        if it.poll() is None:
            it.kill()
            it.wait()
    Host.started.clear()


@pytest.fixture
def folder(tmp_path_factory):
    """A folder whose name is short enough for a socket."""
    return tmp_path_factory.mktemp("host")


@pytest.fixture
def host(program, folder):
    """A host of 480 MiB that is ready, and ends well."""
    it = Host(program, folder, str(folder), "--budget", "480")
    it.lines.next(patience_from_now())
    yield it
    assert it.end() == 0, it.said()


@pytest.fixture
def arrive(host):
    """Adds a guest and lets its client come."""
    here = []

    def come(name, **fields):
        host.ask("add", name=name, **fields)
        here.append(Answering(host, name))
        return here[-1]

    yield come
    for it in here:
        if not it.ended.is_set():
            it.leave()


@pytest.fixture
def kept(program, folder):
    """A host whose changes last."""
    it = Kept(program, folder)
    it.start()
    yield it
    assert it.host.end() == 0, it.host.said()
