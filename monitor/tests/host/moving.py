"""Guests of a lender that migrate, and what happens meanwhile to their processes and lenders. They
have 128 pages."""

import os
import signal
import struct

import pytest
from bigvasta.connection import Connection
from tenants import eventually, process_of, read_target
from test_strict import STRICT
from vhost_client import INFLATE, SET_CONFIG
from vhost_demands import demand_served
from vhost_moves import PROTOCOL, moved_memory

ALL = 128


def kill(lender, _lend):
    """Another process continues with the guest."""
    process = process_of(lender, "a")
    os.kill(process, signal.SIGKILL)
    eventually(lambda: process_of(lender, "a") not in (0, process))
    return lender


def renew(lender, _lend):
    """The same, by an upgrade."""
    process = process_of(lender, "a")
    with Connection(f"{lender.folder}/.control") as control:
        control.ask("renew", name="a")
    eventually(lambda: process_of(lender, "a") not in (0, process))
    return lender


def replace(lender, lend):
    """Another lender continues with the guest."""
    lender.kill()
    later = lend(2, *STRICT, folder=lender.folder)
    later.become("a", here=1)
    return later


WAYS = {"as it was": lambda lender, _: lender, "killed": kill, "renewed": renew, "lender": replace}
EACH_WAY = pytest.mark.parametrize("way", WAYS)


def with_pages(lender, client, pages):
    """Has these pages in the balloon of a guest, and its target be as many."""
    demand_served(client, INFLATE, pages)
    client.accepted(SET_CONFIG, struct.pack("<IIII", 4, 4, 0, len(pages)))
    lender.demand(f"a target {len(pages)}")
    lender.become("a", ballooned=len(pages), asked=len(pages))
    read_target(client)
    lender.become("a", lent=ALL - len(pages))


def continues(other, client, bases):
    """Has a client that has loaded another one's device continue with that one's guest."""
    moved_memory(client, other)
    other.negotiate(protocol=PROTOCOL)
    other.add_memory()
    other.go_on(bases)
