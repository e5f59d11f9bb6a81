"""Tests of the area after the configuration, by which a client that is a VMM has control of its
balloon (docs/LINUX.md, "The control area")."""

import struct

import pytest
from vhost_client import GET_CONFIG, INFLATE, QEMU_PROTOCOL, SET_CONFIG
from vhost_demands import FIRST, demand_served, post_statistics
from vhost_moves import PROTOCOL, comes
from waiting import eventually

OF_DRIVER, OF_CLIENT = 0, 1
VERSION, ASK_STATISTICS, KEEP_PAGES, DISCARD_PAGES = 1, 1, 2, 3
COMMAND_AT = 20
FAILED = struct.pack("<Q", 1)


def area(client, size=256):
    """Returns what is read from the configuration's first byte on."""
    answer = client.send(GET_CONFIG, struct.pack("<III", 0, size, 0) + bytes(size))
    assert len(answer) == 12 + size
    return answer[12:]


def write(client, at, data, whose=OF_CLIENT):
    """Writes; returns the answer."""
    return client.send(SET_CONFIG, struct.pack("<III", at, len(data), whose) + data)


def command(client, number, version=VERSION):
    """Writes a command; returns the answer."""
    return write(client, COMMAND_AT, struct.pack("<II", version, number))


def test_what_the_area_says(start_by_events):
    client = start_by_events()
    post_statistics(client, 11, 12)
    eventually(lambda: client.backend.statistics()[0] == 1, client.why)
    demand_served(client, INFLATE, [FIRST])
    assert write(client, 0, struct.pack("<I", 5)) == bytes(8)
    client.accepted(SET_CONFIG, struct.pack("<IIII", 4, 4, OF_DRIVER, 1))
    said = area(client)
    assert struct.unpack_from("<IIII", said) == (5, 1, 0, 0)
    assert struct.unpack_from("<4sIIIQII", said, 16) == (b"VBCA", VERSION, 5, 1, 1, 0, 2)
    assert struct.unpack_from("<HQHQ", said, 48) == (4, 11, 5, 12)
    # No page is given up for good of 128.
    assert said[68:] == bytes(208 - 68) + struct.pack("<II", 0, 128) + bytes(256 - 216)


# Of how many figures the area has room, and where the first one is.
MOST_FIGURES, FIGURES_AT = 16, 48


def figures(client):
    """Returns how many figures the area says it has, and all that is in the room of figures."""
    said = area(client)
    count = struct.unpack_from("<I", said, FIGURES_AT - 4)[0]
    return count, [struct.unpack_from("<HQ", said, at) for at in range(FIGURES_AT, 208, 10)]


def test_figures_of_the_last_report_alone(start_by_events):
    """Of more than there is room for, the first ones; and of an earlier report that had more,
    none."""
    client = start_by_events()
    for count, reports in ((MOST_FIGURES + 2, 1), (MOST_FIGURES, 2), (3, 3), (1, 4), (0, 5)):
        values = [reports * 1000 + it for it in range(count)]
        post_statistics(client, *values)
        eventually(lambda: client.backend.statistics()[0] == reports, client.why)
        shown = [(tag, it) for tag, it in enumerate(values[:MOST_FIGURES], 4)]
        rest = [(0, 0)] * (MOST_FIGURES - len(shown))
        assert figures(client) == (len(shown), shown + rest)
        assert area(client)[216:] == bytes(256 - 216)
        command(client, ASK_STATISTICS)


@pytest.mark.parametrize("size", (4, 16, 17, 20, 47, 58, 208, 213, 255))
def test_a_part_of_the_area(start_by_events, size):
    client = start_by_events()
    assert area(client, size) == area(client)[:size]


def test_a_read_that_begins_elsewhere(start_by_events):
    client = start_by_events()
    whole = area(client)
    for at in (12, 16, 20, 200, 204, 212, 255):
        answer = client.send(GET_CONFIG, struct.pack("<III", at, 8, 0) + bytes(8))
        assert answer[12:] == (whole + bytes(8))[at : at + 8]
    for at in (256, 2**32 - 8):
        assert client.send(GET_CONFIG, struct.pack("<III", at, 8, 0) + bytes(8))[12:] == bytes(8)


def test_statistics_are_asked_for(start_by_events):
    client = start_by_events()
    post_statistics(client, 11)
    eventually(lambda: client.backend.statistics()[0] == 1, client.why)
    before = client.counter("interrupts")
    assert command(client, ASK_STATISTICS) == bytes(8)
    assert client.counter("interrupts") == before + 1
    assert command(client, ASK_STATISTICS) == bytes(8)
    assert client.counter("interrupts") == before + 1


def test_pages_are_kept_as_long_as_the_client_wants(start_by_events):
    client = start_by_events()
    assert command(client, KEEP_PAGES) == bytes(8)
    assert struct.unpack_from("<I", area(client), 40) == (1,)
    demand_served(client, INFLATE, [FIRST])
    assert (client.counter("kept"), client.holes()) == (1, [])
    assert command(client, DISCARD_PAGES) == bytes(8)
    demand_served(client, INFLATE, [FIRST + 1])
    assert client.holes() == [FIRST + 1]


def test_an_option_to_keep_pages_stays(serve_well):
    client = serve_well("--keep")
    client.start_by_events(protocol=QEMU_PROTOCOL)
    assert command(client, DISCARD_PAGES) == bytes(8)
    demand_served(client, INFLATE, [FIRST])
    assert client.holes() == []


# A command that would be obeyed where commands are, and the places from which on it is none.
KEEP = struct.pack("<II", VERSION, KEEP_PAGES)
ELSEWHERE = (0, 16, 19, 24, 200, 256)

# Bytes of the client's own that are no target and no command of the version.
WRONG = (
    *((at, KEEP) for at in ELSEWHERE),
    *((COMMAND_AT, it) for it in (KEEP[:7], KEEP + bytes(1), KEEP + bytes(4))),
    (0, bytes(3)),
    (0, bytes(8)),
    (3, bytes(4)),
    (13, bytes(4)),
    (COMMAND_AT, bytes(4)),
    (COMMAND_AT, struct.pack("<II", 1, 0)),
    (COMMAND_AT, struct.pack("<II", 1, 4)),
    (COMMAND_AT, struct.pack("<II", 2, ASK_STATISTICS)),
    (24, bytes(8)),
    (2**32 - 4, bytes(8)),
)


@pytest.mark.parametrize("at, data", WRONG)
def test_what_is_no_command(serve, at, data):
    client = serve()
    client.start_by_events(protocol=QEMU_PROTOCOL)
    before = area(client)
    assert write(client, at, data) == FAILED
    assert "control area" in client.why()
    assert area(client) == before


@pytest.mark.parametrize(
    "at, data, words",
    (
        (13, bytes(4), "no control area: a write of 4 bytes at 13"),
        (COMMAND_AT, struct.pack("<II", 2, 7), "command 7 of version 2 of the control area"),
    ),
)
def test_what_is_said_of_what_is_no_command(serve, at, data, words):
    client = serve()
    client.start_by_events(protocol=QEMU_PROTOCOL)
    assert write(client, at, data) == FAILED
    assert words in client.why()


# Of what a driver writes from `actual` up to byte 16: how many bytes, and what `actual` is then.
OF_ACTUAL = ((4, 263), (12, 263), (2, 0))


@pytest.mark.parametrize("size, actual", OF_ACTUAL)
def test_a_driver_s_write_as_rust_vmm_has_it(start_by_events, size, actual):
    """With the flag that QEMU has for the client's own. A part of a field is refused."""
    client = start_by_events()
    answer = write(client, 4, bytes([7, 1, 0, 0, *bytes(8)])[:size])
    assert answer == (bytes(8) if actual else FAILED)
    assert struct.unpack_from("<I", area(client), 4) == (actual,)
    assert client.why() == ""


def test_a_guest_that_comes_has_room_without_a_lender(serve_well):
    """Whatever its client says of it."""
    client = serve_well()
    client.begin(PROTOCOL)
    assert comes(client, 5, 4) == bytes(8)
    client.start_by_events(protocol=PROTOCOL)
    assert comes(client, 2, 128) == bytes(8)
    demand_served(client, INFLATE, [FIRST])


def test_a_driver_writes_no_target(start_by_events):
    client = start_by_events()
    write(client, 0, struct.pack("<I", 9), OF_DRIVER)
    write(client, COMMAND_AT, struct.pack("<II", 1, KEEP_PAGES), OF_DRIVER)
    assert struct.unpack_from("<IIIQI", area(client), 24)[0] == 0
    assert struct.unpack_from("<I", area(client), 40) == (0,)
