"""Rounds of free page hints (VIRTIO 1.2, 5.5.6.6), with a client in the driver's place that sends
ids and pages as it likes."""

import struct

import pytest
from vhost_client import (
    BUFFERS,
    FEATURES,
    GET_CONFIG,
    HAS_PROTOCOL,
    NEXT,
    PAGE,
    POISON,
    QEMU_PROTOCOL,
    REPORT,
    RESET_DEVICE,
    SET_CONFIG,
    SET_FEATURES,
    SET_STATUS,
    WRITE,
)
from vhost_demands import FIRST, demand_refused, word

# The feature, and the number of the queue of hints, before that of reports, where both are
# negotiated.
HINTS, HINT, REPORT_AFTER_HINT = 8, 3, 4
STOP, DONE = 0, 1

# Why no round begins: the driver isn't there, or it hasn't negotiated the feature.
NOT_READY = (
    "error: no round begins: VB_NOT_READY: DRIVER_OK isn't set "
    "(vb_start_queue: FEATURES_OK isn't), or FAILED is"
)
NOT_NEGOTIATED = (
    "error: no round begins: VB_NO_QUEUE: no queue of that kind, or not with the negotiated "
    "features"
)


@pytest.fixture
def hinting(serve_well):
    """Returns a client with a backend of its own, whose driver has negotiated hints."""

    def make(*options):
        client = serve_well("--hints", *options)
        client.start_by_events(features=FEATURES | HINTS)
        return client

    return make


def shown(client):
    """Returns free_page_hint_cmd_id."""
    return struct.unpack(
        "<I", client.send(GET_CONFIG, struct.pack("<III", 8, 4, 0) + bytes(4))[12:]
    )[0]


def post(client, address, length, flags=0):
    """Posts a chain of hints of one piece, which has to be used."""
    client.describe(HINT, 0, address, length, flags)
    client.publish(HINT, 0)
    client.kick(HINT)
    assert client.called(HINT) == 1
    assert client.used_index(HINT) == client.available[HINT]


def send_id(client, number):
    """Sends an id of hints."""
    client.write(BUFFERS, struct.pack("<I", number))
    post(client, BUFFERS, 4)


def hint(client, told, kept=False):
    """Hints two pages, which are told, or come late: what is told is discarded, or kept."""
    before = client.backend.counters()
    client.write(FIRST * PAGE, b"\xff" * 2 * PAGE)
    post(client, FIRST * PAGE, 2 * PAGE, WRITE)
    after = client.backend.counters()
    wanted = {
        "hints_pages": 2 * told,
        "hints_late": 2 * (not told),
        "pages": 2 * told,
        "kept": 2 * (told and kept),
        "discarded": 2 * (told and not kept),
        "skipped": 0,
        "in_holes": 0,
        "chains": 1,
    }
    assert {it: after[it] - before[it] for it in wanted} == wanted
    assert (
        client.read(FIRST * PAGE, 2 * PAGE) == (b"\0" if told and not kept else b"\xff") * 2 * PAGE
    )


def order(client, line):
    """Has the host begin, stop or end a round, of which the driver is told; returns the answer."""
    answer = client.backend.ask(f"hint {line}")
    assert client.told() is None
    return answer


def play(client, story):
    """Plays a story: `start ID`, `stop` and `done` are the host's; `id ID`, `told` and `late` the
    driver's."""
    for step in story.split(", "):
        act, _, number = step.partition(" ")
        if act == "start":
            assert (order(client, "start"), shown(client)) == (f"round {number}", int(number))
        elif act in ("stop", "done"):
            assert (order(client, act), shown(client)) == ("ok", STOP if act == "stop" else DONE)
        elif act == "id":
            send_id(client, int(number))
        else:
            hint(client, act == "told")


# What comes, and how many rounds, pages and late pages are counted.
STORIES = {
    "a round": ("start 2, id 2, told, told, id 0, done", (1, 4, 0)),
    "hints before their id": ("start 2, late, id 2, told", (1, 2, 2)),
    "hints before any round": ("late, id 0, late, id 1, late, id 2, late", (0, 0, 8)),
    "the driver has stopped": ("start 2, id 2, told, id 0, late", (1, 2, 2)),
    "the host has stopped": ("start 2, id 2, told, stop, late, id 2, late, id 0, late", (1, 2, 6)),
    "after DONE": ("start 2, id 2, told, done, late, id 2, late, id 1, late", (1, 2, 6)),
    "the id of the round before": (
        "start 2, id 2, told, start 3, late, id 2, late, id 3, told, id 2, late",
        (2, 4, 6),
    ),
    "a repeated id": ("start 2, id 2, id 2, told, id 2, told", (1, 4, 0)),
    "no id of a round": (
        "start 2, id 0, late, id 1, late, id 3, late, id 4294967295, late",
        (1, 0, 8),
    ),
    "a second round": ("start 2, id 2, told, done, start 3, id 3, told, done, late", (2, 4, 2)),
}


@pytest.mark.parametrize("name", STORIES)
def test_a_story(hinting, name):
    story, counts = STORIES[name]
    client = hinting("--discard-hints")
    play(client, story)
    counters = client.backend.counters()
    assert tuple(counters[it] for it in ("hints_rounds", "hints_pages", "hints_late")) == counts


def test_hints_of_many_pieces(hinting):
    client = hinting("--discard-hints")
    play(client, "start 2, id 2")
    client.describe(HINT, 2, FIRST * PAGE, 3 * PAGE, NEXT | WRITE, 5)
    client.describe(HINT, 5, (FIRST + 8) * PAGE, PAGE, WRITE)
    client.publish(HINT, 2)
    client.kick(HINT)
    assert client.called(HINT) == 1
    assert (client.holes(), client.counter("hints_pages")) == (
        [FIRST + it for it in (0, 1, 2, 8)],
        4,
    )


def test_hints_are_kept(hinting):
    client = hinting()
    play(client, "start 2, id 2")
    hint(client, told=True, kept=True)
    client = hinting("--keep", "--discard-hints")
    play(client, "start 2, id 2")
    hint(client, told=True, kept=True)


def test_poisoned_hints_are_kept(serve_well):
    client = serve_well("--hints", "--discard-hints", "--features", "100000037")
    client.begin(QEMU_PROTOCOL)
    client.accepted(SET_CONFIG, struct.pack("<IIII", 12, 4, 0, 0xFFFFFFFF))
    client.start_by_events(features=FEATURES | HINTS | POISON)
    play(client, "start 2, id 2")
    hint(client, told=True, kept=True)
    client.accepted(SET_CONFIG, struct.pack("<IIII", 12, 4, 0, 0))
    hint(client, told=True)


# How a driver's life ends while another one's rings restart: a reset that is told as such, as
# status 0, or as stopped queues alone.
ENDS = {
    "a reset": lambda client: client.accepted(RESET_DEVICE),
    "a status of 0": lambda client: client.accepted(SET_STATUS, word(0)),
    "stopped queues": lambda client: [client.stop_ring(number) for number in range(4)],
}


@pytest.mark.parametrize("name", ENDS)
def test_a_reset_amid_a_round(hinting, name):
    client = hinting("--discard-hints")
    play(client, "start 2, id 2, told")
    ENDS[name](client)
    assert shown(client) == STOP
    client.accepted(SET_FEATURES, word(FEATURES | HINTS | HAS_PROTOCOL))
    client.go_on()
    play(client, "late, id 2, late, start 3, late, id 2, late, id 3, told")


def test_a_pause_stops_a_round(hinting):
    client = hinting("--discard-hints")
    play(client, "start 2, id 2, told")
    bases = [client.stop_ring(number) for number in range(4)]
    client.go_on(bases)
    client.called(HINT)
    assert shown(client) == STOP
    play(client, "late, done, start 3, id 2, late, id 3, told")


def test_ids_go_on_over_a_restart(hinting):
    client = hinting("--discard-hints")
    words = ("--hints", "--discard-hints", "--state", client.file("state"))
    client.restart(*words)
    client.connect()
    client.start_by_events(features=FEATURES | HINTS)
    play(client, "start 2, id 2, told, start 3")
    client.restart(*words, killed=True)
    client.connect()
    client.start_by_events(features=FEATURES | HINTS)
    assert shown(client) == STOP
    play(client, "id 2, late, id 3, late, start 4, id 3, late, id 4, told")


def test_a_state_of_hints_that_are_not_offered_any_longer(hinting):
    client = hinting()
    words = ("--state", client.file("state"))
    client.restart("--hints", *words)
    client.connect()
    client.start_by_events(features=FEATURES | HINTS)
    play(client, "start 2")
    client.restart(*words)
    client.connect()
    client.start_by_events()
    assert (shown(client), client.backend.ask("hint start")) == (STOP, NOT_NEGOTIATED)


# Chains that are none of the queue of hints: pieces of an address, a length and flags, and what
# they are refused for.
WRONG = (
    ([(BUFFERS, 3, 0)], "rule 8"),
    ([(BUFFERS, 5, 0)], "rule 8"),
    ([(BUFFERS, 0, 0)], "rule 8"),
    ([(BUFFERS, 2, 0), (BUFFERS, 3, 0)], "rule 8"),
    ([(BUFFERS, 4, 0), (FIRST * PAGE, PAGE, WRITE)], "rule 5"),
    ([(FIRST * PAGE, PAGE, WRITE), (BUFFERS, 4, 0)], "rule 5"),
    ([(FIRST * PAGE, PAGE + 1, WRITE)], "rule 8"),
    ([(FIRST * PAGE + 512, PAGE, WRITE)], "rule 9"),
)


@pytest.mark.parametrize("pieces, why", WRONG)
@pytest.mark.parametrize("opened", (False, True))
def test_a_chain_that_is_wrong(serve, pieces, why, opened):
    client = serve("--hints", "--discard-hints")
    client.start_by_events(features=FEATURES | HINTS)
    play(client, "start 2, id 2" if opened else "start 2")
    for head, (address, length, flags) in enumerate(pieces):
        more = head + 1 < len(pieces)
        client.describe(HINT, head, address, length, flags | (NEXT if more else 0), head + 1)
    client.publish(HINT, 0)
    client.kick(HINT)
    demand_refused(client, why)


def test_rounds_that_cannot_begin(serve_well):
    client = serve_well("--hints")
    assert client.backend.ask("hint start") == NOT_READY
    client.start_by_events()  # the driver doesn't take them
    assert client.backend.ask("hint start") == NOT_NEGOTIATED
    assert client.backend.ask("hint") == client.backend.ask("hint begin") == client.backend.ask("x")
    assert client.counter("hints_rounds") == 0


def test_reports_have_the_queue_after_that_of_hints(serve_well):
    client = serve_well("--hints")
    client.start(FEATURES | HINTS, queues=5)
    client.describe(REPORT_AFTER_HINT, 0, FIRST * PAGE, PAGE, WRITE)
    client.publish(REPORT_AFTER_HINT, 0)
    client.kick(REPORT_AFTER_HINT)
    assert (client.told(), client.holes()) == (REPORT_AFTER_HINT, [FIRST])
    assert (client.counter("reports"), client.counter("hints_late")) == (1, 0)
    assert REPORT == HINT  # where hints aren't negotiated
