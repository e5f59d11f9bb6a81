"""Whose client a seat takes, and how much memory that may bring: others are refused by name, as the
kernel says who comes."""

import os
import socket
import stat
import struct

import pytest
from aside import Aside
from bigvasta.connection import Connection
from tenants import FREE, eventually
from test_channels import NOBODY, become_nobody
from test_later_lender import QUICK
from test_strict import STRICT, lent
from vhost_client import PAGE, Client
from waiting import PATIENCE

ROOT, GET_FEATURES, PAGES = 0, 1, 128

AS_ROOT = pytest.mark.skipif(os.geteuid() != 0, reason="another user is tried, which takes root")


def length_answered(path):
    """Comes, asks for the features; returns how many bytes are answered: 0 where the client isn't
    served."""
    with socket.socket(socket.AF_UNIX) as it:
        it.settimeout(PATIENCE)
        it.connect(path)
        try:
            it.send(struct.pack("<III", GET_FEATURES, 1, 0))
            return len(it.recv(100))
        except (BrokenPipeError, ConnectionResetError):
            return 0


def as_nobody(path):
    """Has nobody come; returns how many bytes are answered, -1 where nobody reaches the socket."""

    def act(begins):
        become_nobody(), begins()
        try:
            return length_answered(path)
        except PermissionError:
            return -1

    return Aside(act).numbers()


def owner_of(path):
    """Returns whose a socket is, and its mode."""
    its = os.stat(path)
    return its.st_uid, stat.S_IMODE(its.st_mode)


def refused(lender, user, wanted):
    """Waits until the lender has refused a client by name."""
    words = f"refused a: a client of user {user}, in place of user {wanted}"
    eventually(lambda: lender.hear() or words in lender.said(), lender.said)
    lender.become("a", here=0)


@pytest.fixture
def without_chown(tmp_path, plain):
    """A lender's program that may give no file to another user."""
    path = tmp_path / "host"
    path.write_text(f'#!/bin/sh\nexec setpriv --bounding-set=-chown {plain} "$@"\n')
    path.chmod(0o755)
    return str(path)


@AS_ROOT
@pytest.mark.parametrize("words", ("user=nobody", f"user={NOBODY}"))
def test_a_seat_takes_its_users_clients_alone(lend, folder, words):
    lender = lend(1, *QUICK, folder=folder)
    lender.demand(f"add a {words}")
    path = f"{folder}/a"
    assert owner_of(path) == (NOBODY, 0o600)
    assert length_answered(path) == 0
    refused(lender, ROOT, NOBODY)
    counts = [lender.counters()[it] for it in ("admitted", "refused", "gone")]
    assert counts == [0, 1, 1]
    assert as_nobody(path) == 20


@AS_ROOT
def test_a_user_does_not_reach_the_socket_of_another(lend, folder):
    lender = lend(1, *QUICK, folder=folder)
    lender.demand("add a user=1"), lender.demand("add b")
    assert [as_nobody(f"{folder}/{it}") for it in "ab"] == [-1, 20]
    assert owner_of(f"{folder}/b") == (ROOT, 0o777)
    lender.demand("terms a user=none")
    assert owner_of(f"{folder}/a") == (ROOT, 0o777) and as_nobody(f"{folder}/a") == 20
    lender.demand("terms b user=root")
    assert owner_of(f"{folder}/b") == (ROOT, 0o600) and as_nobody(f"{folder}/b") == -1


@AS_ROOT
def test_a_lender_that_may_give_no_file_away_asks_the_kernel_who_comes(lend, folder, without_chown):
    lender = lend(1, *QUICK, folder=folder, program=without_chown)
    lender.demand("add a user=1")
    assert owner_of(f"{folder}/a") == (ROOT, 0o777)
    assert as_nobody(f"{folder}/a") == 0
    refused(lender, NOBODY, 1)
    lender.demand(f"terms a user={NOBODY}")
    assert as_nobody(f"{folder}/a") == 20


@AS_ROOT
def test_a_later_lender_knows_whose_a_seat_is(lend, come, folder):
    first = lend(1, *QUICK, folder=folder)
    come(first, "a", {FREE: 100}, "user=root")
    first.demand(f"terms a user={NOBODY}")
    first.kill()
    lender = lend(1, *QUICK, folder=folder)
    lender.become("a", ready=1)
    assert owner_of(f"{folder}/a") == (NOBODY, 0o600)
    with Connection(f"{folder}/.control") as it:
        assert it.ask("status")["guests"][0]["terms"]["user"] == NOBODY


def bring(lender, name):
    """Comes with memory; returns whether that is admitted."""
    it = Client(f"{lender.folder}/{name}")
    try:
        it.start()
        return True
    except (AssertionError, OSError, TypeError):
        return False
    finally:
        it.leave()


@pytest.mark.parametrize("options", (QUICK, STRICT), ids=("not strict", "strict"))
def test_a_client_that_brings_too_much_is_refused(lend, come, options):
    lender = lend(1, *options)
    b = come(lender, "b", {FREE: 100}, "memory=1")
    target = lender.guests()["b"]["target"]
    with Connection(f"{lender.folder}/.control") as control:
        control.ask("add", name="a", memory=(PAGES - 1) * PAGE)
        assert not bring(lender, "a")
        why = "refused a: its memory has 512K, and may have 508K (memory=)"
        eventually(lambda: lender.hear() or why in lender.said(), lender.said)
        lender.become("a", here=0)
        assert [lender.counters()[it] for it in ("admitted", "refused")] == [1, 1]
        assert lent(lender) == PAGES and lender.guests()["b"]["target"] == target
        control.ask("guest", name="a", memory=PAGES * PAGE)
    assert bring(lender, "a") and b.is_alive()


def test_memory_that_is_there_stays_when_less_may_come(lend, come):
    lender = lend(1, *STRICT)
    a = come(lender, "a", {FREE: 100}, "memory=1")
    lender.demand("terms a memory=0")
    a.give([200]), lender.become("a", ready=1, pages=PAGES)
    assert a.is_alive() and lender.counters()["refused"] == 0
