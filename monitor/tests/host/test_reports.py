"""What a guest's process reports: each field of a report, with numbers that differ."""

import select
import string
import struct

import pytest
from bigvasta import __version__
from played import NUMBERS, ORDER_LOOK, ORDER_TARGET, TELL_REPORT, VERSION, Message, Played
from tenants import AVAILABLE, FREE, eventually
from test_channels import channel, length_heard
from test_strict import GIVEN, STRICT
from vhost_client import PAGE, REGIONS, SET_CONFIG

# Where `actual` is in the configuration (VIRTIO 1.1, 5.5.4), and what is written there.
ACTUAL_AT, ACTUAL = 4, 29

# A guest of 128 pages that has given 45, whose target is 33 now, and that holds a deflate of 10;
# the number of the order to look; what isn't here is 0.
ALL, GAVE, TARGET, TAKES, DRIVER_OK, LOOK = 128, 45, 33, 10, 15, 7

# A process that holds deflates, and could let its guest start with less than its memory (enum
# lending_hold).
MAY_START_SMALL = 2
WANTED = {
    "kind": TELL_REPORT,
    "number": LOOK,
    "held_kib": 4 * (ALL - GAVE),
    "end": (REGIONS[1][0] // PAGE) + ALL // 2,
    "pages": ALL,
    "wanted": ALL,
    "wait": 1,
    "holds": MAY_START_SMALL,
    "held_pages": TAKES,
    "held_wait": 1,
    "target": TARGET,
    "actual": ACTUAL,
    "ballooned": GAVE,
    "status": DRIVER_OK,
    "ready": 1,
    "obeyed": TARGET + 1,
    "ballooned_then": GAVE,
    "figure_count": 2,
}


# Seconds in which a report would come, and pages that are given.
HEARD, MORE = 0.5, 5


def order(channel, kind, **its):
    """Gives an order, as a lender does."""
    channel.send(bytes(Message(version=VERSION, kind=kind, **its)))


def reported(channel):
    """Returns the report that answers an order to look."""
    order(channel, ORDER_LOOK, number=LOOK)
    return next(
        it
        for it in iter(lambda: Message.from_buffer_copy(channel.recv(1 << 16)), None)
        if it.number == LOOK
    )


def test_each_field_of_a_report(lend, come):
    lender = lend(1, *STRICT)
    guest = come(lender, "a", {FREE: 100, AVAILABLE: 90})
    lender.set_budget(ALL - GAVE)
    guest.give(GIVEN[:GAVE])
    lender.become("a", ballooned=GAVE, lent=ALL - GAVE)
    told = lender.guests()["a"]["statistics"]
    eventually(lambda: lender.guests()["a"]["statistics"] > told + 1)
    lender.kill()
    with channel() as it:
        it.connect(f"{lender.folder}/.channels/a")
        order(it, ORDER_TARGET, target=TARGET)
        with guest.lock:
            guest.client.send(SET_CONFIG, struct.pack("<IIII", ACTUAL_AT, 4, 0, ACTUAL))
        guest.take(GIVEN[:TAKES])
        report = eventually(
            lambda: (its := reported(it)).held_pages and its.obeyed == TARGET + 1 and its
        )
    fields = ("kind", "number", "held_kib", "end", "lost", *NUMBERS)
    assert {it: getattr(report, it) for it in fields} == {it: WANTED.get(it, 0) for it in fields}
    assert report.serial > 0 and report.words == __version__.encode()
    assert [(it.tag, it.value) for it in report.figures[:2]] == [
        (FREE, 100 * PAGE),
        (AVAILABLE, 90 * PAGE),
    ]
    lend(1, *STRICT, folder=lender.folder)


def unasked(channel):
    """Returns the reports that come for a while, though nobody asks for one."""
    found = []
    while select.select([channel], [], [], HEARD)[0]:
        found.append(Message.from_buffer_copy(channel.recv(1 << 16)))
        assert len(found) < ALL, "reports come without an end"
    return found


@pytest.mark.parametrize("strict", (0, 1))
def test_pages_that_are_given_are_news_of_a_strict_guest_alone(lend, come, strict):
    """Of another one they are known by the next answer. Of a guest at rest there is no news."""
    lender = lend(1, *STRICT)
    guest = come(lender, "a", {FREE: 100}, f"strict={strict}")
    lender.kill()
    with channel() as it:
        it.connect(f"{lender.folder}/.channels/a")
        reported(it), unasked(it)
        assert not unasked(it)
        guest.give(GIVEN[:MORE])
        assert [its.ballooned for its in unasked(it)] == [MORE] * strict
        assert reported(it).ballooned == MORE
    lend(1, *STRICT, folder=lender.folder)


def spoiled(message):
    """Yields what isn't a message of this version: with a byte less or more, or of another one."""
    whole = bytes(message)
    yield whole[:-1]
    yield whole + bytes(1)
    for version in (VERSION - 1, VERSION + 1, VERSION << 8):
        message.version = version
        yield bytes(message)


NO_MESSAGES = pytest.mark.parametrize("number", range(5))


@NO_MESSAGES
def test_a_process_that_says_what_is_no_message_is_heard_no_longer(lend, number):
    lender = lend(1, *STRICT)
    a = Played(lender, "a", pages=ALL)
    its = Message(version=VERSION, kind=TELL_REPORT, holds=1, ready=1, pages=ALL, actual=ACTUAL)
    a.channel.send(list(spoiled(its))[number])
    eventually(lambda: not a.is_alive(), "its end of the channel isn't closed")
    assert lender.status()["guests"][0]["actual"] == 0
    a.listens.end(), a.channel.close()
    lender.become("a", here=0, pages=0)


@NO_MESSAGES
def test_a_process_obeys_no_order_that_is_no_message(lend, come, number):
    """It waits for another lender, and obeys that."""
    lender = lend(1, *STRICT)
    come(lender, "a", {FREE: 100})
    lender.kill()
    with channel() as it:
        it.connect(f"{lender.folder}/.channels/a")
        target = reported(it).target
        it.send(list(spoiled(Message(version=VERSION, kind=ORDER_TARGET, target=TARGET)))[number])
        eventually(lambda: length_heard(it) == 0)
    with channel() as it:
        it.connect(f"{lender.folder}/.channels/a")
        assert reported(it).target == target
    lend(1, *STRICT, folder=lender.folder).become("a", ready=1)


# Bytes of a version with the 0 after it, and the signs that versions have.
BYTES, SIGNS = 32, string.ascii_letters + string.digits + ".+~-"

# What a process says that its version is, and what is shown: nothing of what isn't one.
VERSIONS = (
    *((SIGNS[at : at + 22],) * 2 for at in range(0, len(SIGNS), 22)),
    *((f"0.4{it}0", "") for it in " *,/:@[_`{}\n\x1b\x7f\x80\xff"),
    *((f"{it}0.4", "") for it in "\n\xff"),
    ("1" * (BYTES - 1),) * 2,
    ("1" * BYTES, ""),
    ("", ""),
)


def test_what_is_shown_of_the_version_that_a_process_says(lend):
    lender = lend(1, *STRICT)
    a = Played(lender, "a", pages=ALL)

    def shown():
        its = lender.status()["guests"][0]
        return its["actual"], its["version"]

    for number, (said, wanted) in enumerate(VERSIONS, 1):
        a.report(words=said.encode("latin-1"), actual=number)
        eventually(lambda: shown()[0] == number * PAGE, lender.said)
        assert shown() == (number * PAGE, wanted), said
    a.leave()
