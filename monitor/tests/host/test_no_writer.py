"""A limit that nobody writes, as there can be no process for it: why is said."""

import os

import pytest
from host_places import Mount
from tenants import eventually
from test_owners import AS_ROOT
from test_strict import STRICT, Later
from vhost_client import Client

# A user that has no other process, and the most that it may have: the lender, and two of a guest.
USER, MOST = 60000 + os.getpid() % 5000, 3


@pytest.fixture
def limited(tmp_path, plain):
    """A lender's program that a user without privileges runs, who may have few processes."""
    path = tmp_path / "host"
    words = f"setpriv --reuid={USER} --clear-groups prlimit --nproc={MOST} {plain}"
    path.write_text(f'#!/bin/sh\nexec {words} "$@"\n')
    path.chmod(0o755), tmp_path.chmod(0o755)
    return str(path)


@AS_ROOT
def test_why_a_limit_has_no_writer(lend, folder, tmp_path, limited):
    its = Mount(f"{tmp_path}/limit")
    lender = lend(1, *STRICT, folder=folder, program=limited)
    lender.demand(f"add a overhead=0 limit={its.term}")
    client = Client(f"{folder}/a")
    client.negotiate()
    comes = Later(client.hand_over_memory)
    said = f"a: its limit {its.term} can't be set to 512 KiB: Resource temporarily unavailable"
    eventually(lambda: lender.hear() or said in lender.said(), lender.said)
    client.socket.shutdown(2)
    comes.join()
    client.leave(), its.end()
