"""The control area of a guest, strict or not, as its client finds it under a lender (docs/LINUX.md,
"The control area")."""

import fcntl
import os
import struct

import pytest
from test_held import FUTURE_WRITE
from test_strict import GIVEN, STRICT
from vhost_client import (
    GET_CONFIG,
    INFLATE,
    PAGE,
    PAGES_OF_REGION,
    REGIONS,
    REPORT,
    SET_CONFIG,
    WRITE,
    Client,
)
from vhost_demands import demand_served
from vhost_moves import FINE, OF_CLIENT, PROTOCOL, WRONG, load, moved_memory, saved, stopped

# Where the modes, and the pages that are given up, are; who has control; the commands.
MODES_AT, GIVEN_AT, HAS_LENDER = 40, 208, 2
TARGET, KEEP, DISCARD, ASK = (0, 5), (20, 1, 2), (20, 1, 3), (20, 1, 1)


def area(client):
    """Returns the configuration and what is after it."""
    return client.send(GET_CONFIG, struct.pack("<III", 0, 216, 0) + bytes(216))[12:]


def write(client, at, *words):
    """Writes words in the client's own name; returns the answer."""
    body = struct.pack(f"<{3 + len(words)}I", at, 4 * len(words), OF_CLIENT, *words)
    return client.send(SET_CONFIG, body)


def test_the_lender_has_control_of_a_guest_that_is_not_strict(lend):
    """Nothing of it counts as given up for good: it takes pages when it likes."""
    lender = lend(1, "--floor", "0", "--period", "100", "--step", "0", "--lines", "1000")
    client = Client(lender.add("a"), lambda: lender.said()[-4:])
    client.begin(PROTOCOL)
    client.start_by_events(protocol=PROTOCOL)
    demand_served(client, INFLATE, GIVEN[:3])
    lender.become("a", ready=1, ballooned=3)
    its = area(client)
    assert struct.unpack_from("<I", its, MODES_AT) == (HAS_LENDER,)
    assert struct.unpack_from("<II", its, GIVEN_AT) == (0, 128)
    assert [write(client, *it) for it in (TARGET, KEEP, DISCARD)] == [WRONG] * 3
    lender.tells("a: the lender alone has control")
    assert area(client) == its
    assert write(client, *ASK) == FINE
    client.leave()


@pytest.fixture
def sealed(lend):
    """Returns a lender, and a client whose balloon has three pages; none of its second region can
    be discarded any longer."""
    lender = lend(1, *STRICT)
    client = Client(lender.add("a"), lambda: lender.said()[-4:])
    client.replace(1, os.memfd_create("region", os.MFD_CLOEXEC | os.MFD_ALLOW_SEALING))
    client.begin(PROTOCOL)
    client.start_by_events(protocol=PROTOCOL)
    demand_served(client, INFLATE, GIVEN[:3])
    assert struct.unpack_from("<I", area(client), GIVEN_AT) == (3,)
    fcntl.fcntl(client.files[1], fcntl.F_ADD_SEALS, FUTURE_WRITE)
    yield lender, client
    client.leave()


def test_what_fails_to_be_discarded_as_a_device_is_loaded_is_not_given_up(sealed):
    """Another process of the guest finds as much."""
    lender, client = sealed
    demand_served(client, INFLATE, GIVEN[-1:])
    bases = stopped(client)
    other = Client(lender.add("b"), lambda: lender.said()[-4:])
    other.replace(1, os.memfd_create("region", os.MFD_CLOEXEC | os.MFD_ALLOW_SEALING))
    other.begin(PROTOCOL)
    assert load(other, saved(client))
    moved_memory(client, other)
    other.negotiate(protocol=PROTOCOL)
    other.add_memory()
    fcntl.fcntl(other.files[1], fcntl.F_ADD_SEALS, FUTURE_WRITE)
    other.go_on(bases)
    assert other.called(INFLATE) == 1
    assert struct.unpack_from("<I", area(other), GIVEN_AT) == (3,)
    other.leave()


def test_what_a_report_fails_to_discard_takes_nothing_of_what_is_given_up(sealed):
    """That counts pages in the balloon alone."""
    lender, client = sealed
    client.describe(REPORT, 0, REGIONS[1][0] + PAGES_OF_REGION // 2 * PAGE, PAGE, WRITE)
    client.publish(REPORT, 0)
    client.kick(REPORT)
    assert client.called(REPORT) == 1
    lender.tells("a: 1 pages can't be discarded")
    assert struct.unpack_from("<I", area(client), GIVEN_AT) == (3,)


def test_what_is_held_is_not_given_up_as_its_device_is_loaded_again(sealed):
    _, client = sealed
    demand_served(client, INFLATE, GIVEN[-1:])
    bases = stopped(client)
    assert load(client, saved(client))
    client.go_on(bases)
    assert client.called(INFLATE) == 1
    assert struct.unpack_from("<I", area(client), GIVEN_AT) == (3,)
