"""What a guest's process keeps (monitor/backends/process/kept.h): the process is killed right after
a field has changed, and the next one continues with that very value. The lender stands still
meanwhile, so that it says nothing again."""

import contextlib
import os
import socket
import struct

import pytest
from host_places import ramfs
from kept import HEAD, Life, layout
from tenants import AVAILABLE, FREE, PAGES, eventually, stop
from test_strict import GIVEN
from vhost_client import (
    ADD_MEM_REG,
    DEFLATE,
    FEATURES,
    GET_CONFIG,
    HAS_PROTOCOL,
    NO_FILE,
    PAGE,
    PAGES_OF_REGION,
    POISON,
    QEMU_PROTOCOL,
    REGIONS,
    REPORT,
    SET_FEATURES,
    SET_VRING_CALL,
    SET_VRING_ERR,
    SET_VRING_KICK,
    SIZE,
    STATISTICS,
    WRITE,
    memory_file,
)

from vhost_logs import LOG_BYTES, LOG_OFFSET, log_base, log_file, set_logging
from vhost_moves import HEAD as HEAD_OF_MOVED
from vhost_moves import PROTOCOL, SAVE, SUM, WELL, ask, comes, load, saved, stopped

# The lender asks nobody by itself.
QUIET = (
    "--strict",
    "--floor",
    "0",
    "--period",
    "60000",
    "--step",
    "0",
    "--features",
    f"{FEATURES | POISON:x}",
)

# Where `actual` and `poison_val` are in the configuration (VIRTIO 1.1, 5.5.4), and what is written
# there.
ACTUAL_AT, POISON_AT, POISON_VALUE = 4, 12, 0xA1B2C3D4

QUEUES_USED, ON = range(4), [1, 1, 1, 1, 0]

# Fields that another test is for: which state counts, what an upgrade finds, and what is between
# two steps of a message.
ELSEWHERE = {
    "kept.counts": ("test_anew.py", "old-state"),
    "kept.renews": (
        "../control/test_upgrade.py",
        "test_one_command_upgrades_the_host_and_its_guests",
    ),
    "kept.stays": (
        "../control/test_upgrade.py",
        "test_a_process_whose_program_does_not_go_on_stays",
    ),
    "kept.unnoted": ("test_anew.py", "lost-bytes"),
    "awaited": ("test_start.py", "test_another_process_and_another_lender_know_of_it"),
    "outside": ("test_held.py", "test_what_a_removed_slot_holds_stays_lent_over_a_change"),
    "kept.inbox.message": ("test_anew.py", "lost-files"),
    "kept.inbox.ahead": ("test_between_calls.py", "test_messages_that_are_read_at_once"),
    "outcome": ("test_anew.py", "handles-twice"),
    "moves.serial": ("test_migrating.py", "test_another_program_knows_nothing_of_a_log"),
    "room.amid": ("test_migration_cut.py", "test_a_migration_that_is_cut_off_anywhere"),
}

# What is 0 for each guest of these tests: a kick is an eventfd, no memory has huge pages, and the
# set has words for all pages.
ZEROS = ("rings.kick.is_socket", "counters.waiting", "counters.unmarked")


class File(str):
    """A file of this kind, which has the number that it had."""

    def fault(self, life, now, before):
        return now != before or not life.kept.link(now).startswith(self)


class Cleared:
    """A number that is 0 again."""

    def fault(self, life, now, before):
        return now != 0


class AtLeast(int):
    """A number that has grown to this one, and may have grown since then."""

    def fault(self, life, now, before):
        return now < self or now < before


def faults(life, wanted, now, before):
    """Whether a value isn't what is wanted; of a list its first ones."""
    if isinstance(wanted, (list, tuple)):
        return any(faults(life, *its) for its in zip(wanted, now, before)) or len(now) < len(wanted)
    return wanted.fault(life, now, before) if hasattr(wanted, "fault") else now != wanted


EVENT, SOCKET, MEMORY, PIPE, NONE = (
    File("anon_inode:[eventfd]"),
    File("socket:"),
    File("/memfd:region"),
    File("pipe:"),
    -1,
)
STEPS = {}


def step(names):
    """Makes a function a step: it changes fields of these names, and returns their values."""

    def keep(act):
        STEPS[act.__name__] = (names.split(), act)
        return act

    return keep


@step(
    "kept.layout kept.bytes kept.ended_by kept.turns notes.serial notes.ready_then told.features "
    "told.protocol told.status told.owned told.negotiated"
)
def a_driver_is_ready(life):
    life.comes()
    turns, serial = life.kept["kept.turns"], life.kept["notes.serial"]
    _, at, size, *_ = layout()["kept.set"]
    return (
        1,
        at + size,
        9,
        AtLeast(turns + 1),
        AtLeast(serial + 1),
        1,
        FEATURES | POISON | HAS_PROTOCOL,
        QEMU_PROTOCOL,
        15,
        1,
        1,
    )


@step(
    "rings.table rings.avail rings.used rings.size rings.placed rings.based rings.enabled "
    "rings.started rings.runs"
)
def rings_run(life):
    life.comes()
    table, used, avail = (
        [REGIONS[0][1] + (3 * it + page) * PAGE for it in QUEUES_USED] + [0] for page in (0, 2, 1)
    )
    return table, avail, used, [SIZE] * 4 + [0], ON, ON, ON, ON, ON


@step(
    "rings.kick.file rings.call.file rings.fault.file rings.kick.is_socket rings.call.is_socket "
    "rings.fault.is_socket"
)
def queues_have_files(life):
    life.comes()
    life.files = [*socket.socketpair(), *socket.socketpair()]
    life.client.accepted(SET_VRING_CALL, struct.pack("<Q", STATISTICS), [life.files[0].fileno()])
    life.client.accepted(SET_VRING_ERR, struct.pack("<Q", REPORT), [life.files[2].fileno()])
    life.client.accepted(SET_VRING_ERR, struct.pack("<Q", DEFLATE), [life.client.kicks[DEFLATE]])
    calls, faults = [EVENT, EVENT, SOCKET, EVENT, NONE], [NONE, EVENT, NONE, SOCKET, NONE]
    return [EVENT] * 4 + [NONE], calls, faults, [0] * 5, [0, 0, 1, 0, 0], [0, 0, 0, 1, 0]


@step("regions.file socket channel notes.channel notes.later notes.end kept.outbox.ends")
def a_client_and_a_lender_are_there(life):
    life.comes()
    return [MEMORY] * 2, SOCKET, SOCKET, SOCKET, SOCKET, File("anon_inode:[signalfd]"), [PIPE] * 2


@step(
    "regions.place.guest regions.place.user regions.place.size regions.place.offset region_count "
    "set_words notes.pages notes.wait"
)
def memory_comes(life):
    life.comes()
    guest, user = map(list, zip(*REGIONS))
    words = (REGIONS[1][0] // PAGE + PAGES_OF_REGION) // 64
    return guest, user, [PAGES_OF_REGION * PAGE] * 2, [PAGE] * 2, 2, words, 2 * PAGES_OF_REGION, 2


@step("messages bytes kept.counted_from kept.inbox.number kept.outbox.number counters.messages")
def messages_are_served(life):
    life.comes()
    its = life.client
    return its.messages, its.bytes, its.bytes, its.messages, its.messages, its.messages


@step("kept.set rings.base notes.ballooned_before actual_pages poison_value")
def pages_are_given(life):
    life.comes()
    life.writes(POISON_AT, POISON_VALUE)
    life.gives(GIVEN[:10], 1), life.gives(GIVEN[10:30], 2), life.tells(1)
    life.writes(ACTUAL_AT, 30)
    words = [sum(1 << it % 64 for it in GIVEN[:30] if it // 64 == word) for word in range(8)]
    return words, [2, 0, 1, 0, 0], 30, 30, POISON_VALUE


@step("notes.undiscarded")
def pages_cannot_be_discarded(life):
    life.client.replace(1, memory_file(life.no_discards, "region 1"))
    life.comes()
    life.gives([*GIVEN[:10], *range(PAGES, PAGES + 30)], 1)
    return (30,)


@step("figures figure_count notes.heard notes.ballooned_then")
def statistics_are_told(life):
    life.comes()
    life.gives(GIVEN[:10], 1), life.tells(1), life.gives(GIVEN[10:15], 2)
    return list(struct.pack("<HxxxxxxQHxxxxxxQ", FREE, 100 * PAGE, AVAILABLE, 90 * PAGE)), 2, 1, 10


@step("target_pages notes.ballooned_told")
def a_target_is_told(life):
    life.comes()
    life.gives(GIVEN[:10], 1), life.tells(1)
    life.lender.demand("a target 20"), life.lender.become("a", asked=20)
    return 20, 10


@step("notes.taken notes.taken_since notes.ballooned_then")
def pages_are_taken(life):
    """Below its target a guest takes them by itself."""
    a_target_is_told(life)
    life.gives(GIVEN[10:20], 2), life.takes(GIVEN[:5], 1)
    eventually(lambda: life.kept["notes.taken"])
    return 5, 1, 15


@step("notes.taken notes.taken_since notes.ballooned_then")
def statistics_are_told_after_pages_were_taken(life):
    pages_are_taken(life)
    life.tells(2), life.gives(GIVEN[:2], 3)
    return 5, Cleared(), 15


@step("notes.reads notes.read_target")
def a_target_is_read(life):
    life.comes()
    life.tells(1)
    life.lender.demand("a target 20"), life.lender.become("a", asked=20)
    life.client.send(GET_CONFIG, struct.pack("<III", 0, 8, 0) + bytes(8))
    return 1, 20


@step("notes.held_pages notes.held_wait")
def a_deflate_is_held(life):
    life.comes()
    life.gives(GIVEN[:10], 1)
    life.lender.reclaim("a", life.client, 10)
    life.lender.demand("budget 0")
    life.client.post_pages(DEFLATE, GIVEN[:3])
    life.lender.become("a", waits="deflate")
    return 3, 1


@step("kept.granted notes.held_pages notes.held_wait")
def a_second_deflate_is_held(life):
    life.comes()
    life.gives(GIVEN[:10], 1), life.takes(GIVEN[:2], 1)
    life.lender.reclaim("a", life.client, 8)
    life.lender.demand("budget 0")
    life.client.post_pages(DEFLATE, GIVEN[2:5])
    life.lender.become("a", waits="deflate")
    return 1, 3, 2


@step("told.goes_on told.actual")
def rings_stop(life):
    life.comes()
    life.gives(GIVEN[:10], 1), life.writes(ACTUAL_AT, 10)
    for number in QUEUES_USED:
        life.client.enable(number, 0)
    return 1, 10


@step("rings.polled")
def a_ring_is_polled(life):
    life.comes()
    life.client.accepted(SET_VRING_KICK, struct.pack("<Q", DEFLATE | NO_FILE))
    return ([0, 1, 0, 0, 0],)


@step("moves.log.file moves.log.bytes moves.log.offset rings.logged")
def a_log_is_handed_over(life):
    life.client.start_by_events(FEATURES, PROTOCOL)
    assert log_base(life.client, log_file()) == bytes(8)
    set_logging(life.client, True)
    return File("/memfd:log"), LOG_BYTES, LOG_OFFSET, ON


def with_a_large_memory(life):
    """A guest whose memory ends where it may at most, with its last page in the balloon; and what
    its device's bytes are: more than a pipe has room for."""
    client = life.client
    client.begin(PROTOCOL), client.negotiate(FEATURES, PROTOCOL)
    client.accepted(ADD_MEM_REG, client.region_body(0), [client.files[0]])
    place = struct.pack("<QQQQQ", 0, (1 << 36) - PAGE, PAGE, REGIONS[1][1], PAGE)
    client.accepted(ADD_MEM_REG, place, client.files[1:])
    client.go_on()
    life.gives([(1 << 24) - 1], 1), life.writes(ACTUAL_AT, 1)
    stopped(client)


@step(
    "moves.transfer.state moves.transfer.file moves.transfer.length moves.transfer.done room.bytes"
)
def a_device_is_saved(life):
    with_a_large_memory(life)
    ours, theirs = os.pipe()
    assert ask(life.client, theirs, SAVE) == WELL
    life.files.append(open(ours, "rb"))
    eventually(lambda: life.kept["moves.transfer.done"])
    return 1, PIPE, HEAD_OF_MOVED + (2 << 20) + SUM, AtLeast(4096), list(b"VBMOVED")


@step(
    "moves.moved.awaits moves.moved.index moves.moved.memory_end moves.moved.actual "
    "moves.moved.words room.set"
)
def a_device_is_loaded(life):
    with_a_large_memory(life)
    assert load(life.client, saved(life.client))
    last = ((1 << 24) - 1) // 64
    return 1, 1, 1 << 36, 1, 1 << 18, last * [0] + [1 << 63]


@step("moves.comes_with moves.reserved")
def one_comes_from_another_host(life):
    life.client.begin(PROTOCOL)
    assert comes(life.client, 88, 128) == bytes(8)
    return 88, 128


@step("remarks")
def features_are_refused(life):
    """A strict guest has to tell the host before it uses a page."""
    life.client.negotiate(FEATURES, QEMU_PROTOCOL)
    for _ in range(3):
        assert life.client.send(
            SET_FEATURES, struct.pack("<Q", (FEATURES & ~1) | HAS_PROTOCOL)
        ) != bytes(8)
    return (3,)


@step("notes.lost")
def the_lender_reads_nothing(life):
    """Each refusal is a message to it, and so is each page that comes; there is no room for
    hundreds."""
    life.client.negotiate(FEATURES, QEMU_PROTOCOL), life.client.add_memory()
    stop(life.lender.process.pid)
    for _ in range(100):
        life.client.send(SET_FEATURES, struct.pack("<Q", (FEATURES & ~1) | HAS_PROTOCOL))
    life.client.negotiate(FEATURES, QEMU_PROTOCOL), life.client.go_on()
    count = 0
    while life.kept["notes.lost"] < 5:
        count += 1
        life.gives([GIVEN[count]], count)
    return (AtLeast(5),)


@step("seen notes.channel")
def no_lender_is_there(life):
    """Each second a process without a lender looks at `actual`, by which it tells whether its
    driver moves."""
    life.comes()
    life.writes(ACTUAL_AT, 10)
    life.lender.kill()
    eventually(lambda: life.kept["seen"] == 10)
    return 10, NONE


@step("kept.inbox.got kept.inbox.head")
def a_head_is_cut_off(life):
    life.begins(struct.pack("<II", SET_FEATURES, 9))
    return 8, [SET_FEATURES, 9]


@step("kept.inbox.got kept.inbox.got_body kept.inbox.head")
def a_message_is_cut_off(life):
    life.begins(struct.pack("<III", SET_FEATURES, 9, 8) + b"x" * 3)
    return HEAD, 3, [SET_FEATURES, 9, 8]


@step(
    """counters.kicks counters.interrupts counters.told counters.chains counters.pages
    counters.discarded counters.waiting counters.skipped counters.in_holes counters.kept
    counters.marked counters.unmarked counters.inflated counters.deflated counters.reported
    counters.reports counters.statistics counters.taken"""
)
def all_is_counted(life):
    """The next process has the numbers of this one, and tells its driver once more."""
    life.comes()
    life.writes(POISON_AT, POISON_VALUE)
    life.gives(
        [*GIVEN[:10], 1 << 20, REGIONS[1][0] // PAGE - 1], 1
    )  # past the end, and in the hole
    life.tells(1)
    life.lender.demand("a target 20"), life.lender.become("a", asked=20)
    life.takes(GIVEN[:3], 1)
    life.client.describe(REPORT, 0, GIVEN[20] * PAGE, 4 * PAGE, WRITE)
    life.client.publish(REPORT, 0), life.client.kick(REPORT)
    life.is_used(REPORT, 1)
    eventually(lambda: life.kept["counters.reports"])
    stop(life.lender.process.pid)
    its = [life.kept[it] for it in STEPS["all_is_counted"][0]]
    its[2] += 1
    return its


# Steps of a guest whose deflates don't wait, so that its target is only what the test says.
LOOSE = (
    "a_target_is_told",
    "pages_are_taken",
    "statistics_are_told_after_pages_were_taken",
    "all_is_counted",
)


@pytest.fixture
def life(lend, name, tmp_path):
    with contextlib.ExitStack() as stack:
        its = Life(lend(1, *QUIET), int(name not in LOOSE))
        stack.callback(its.leave)
        if name == "pages_cannot_be_discarded":
            if os.geteuid() != 0:
                pytest.skip("a file system is mounted, which takes root")
            its.no_discards = stack.enter_context(ramfs(f"{tmp_path}/no-discards"))
        yield its


@pytest.mark.parametrize("name", STEPS)
def test_the_next_process_goes_on_with_what_was_kept(life, name):
    names, act = STEPS[name]
    values = act(life)
    before = {it: life.kept[it] for it in names}
    life.kept.kill(life.lender)
    for field, wanted in zip(names, values, strict=True):
        now = life.kept[field]
        some = field in ZEROS or (any(wanted) if isinstance(wanted, (list, tuple)) else wanted)
        assert some, f"{field} is 0 already, which says nothing"
        assert not faults(
            life, wanted, now, before[field]
        ), f"{field} is {now} in the next process, and was {before[field]}: it should be {wanted}"


def test_each_field_that_is_kept_has_its_step():
    for file, name in ELSEWHERE.values():
        with open(os.path.join(os.path.dirname(__file__), file), encoding="utf-8") as its:
            assert name in its.read(), f"{file} has no {name}"
    tested = {field for names, _ in STEPS.values() for field in names} | set(ELSEWHERE)
    assert set(layout()) == tested, set(layout()) ^ tested
