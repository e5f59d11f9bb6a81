"""Tests of each register of a balloon on PCI, as VIRTIO 1.1 has them (4.1.4), of its memory and of
its files."""

import os
import signal
import struct
import time

import pytest
from pci_client import (
    ACCEPTED,
    ACCEPT_SELECT,
    BAR_WRITE,
    BUFFERS,
    CONFIGURATION_READ,
    DEVICE,
    ENABLE,
    GENERATION,
    ISR,
    MSIX,
    NOTIFY,
    NOTIFY_OFF,
    OFFERED,
    OFFER_SELECT,
    PAGE,
    PAGES,
    PLACE,
    QUEUES,
    QUEUE_MSIX,
    QUEUE_SIZE,
    SELECT,
    SET_INTERRUPT,
    SIZE,
    STATUS,
    SYNC_MEMORY,
)
from waiting import patience_from_now, seconds_of

COMMON, NOTIFIES, INTERRUPTS, CONFIGURATION = 1, 2, 3, 4

# What a queue shows that nobody has placed; and one that isn't there.
UNPLACED, ABSENT = [256, 0xFFFF, *[0] * 7], [0] * 9


def queue(client, number):
    """Selects a queue; returns its size, vector, whether it is enabled, and the halves of its
    place."""
    client.write(SELECT, number, 2)
    return [client.read(it, 2) for it in (SIZE, QUEUE_MSIX, ENABLE)] + [
        client.read(PLACE + it) for it in range(0, 24, 4)
    ]


def eventually(condition, words):
    """Waits until a condition holds."""
    end = patience_from_now()
    while not condition():
        assert time.monotonic() < end, words


def test_capabilities(client):
    at, found = client.configuration(0x34, 1), {}
    while at:
        vendor, follows, length, kind = client.configuration(at).to_bytes(4, "little")
        bar, offset, size = (client.configuration(at + it) for it in (4, 8, 12))
        assert (vendor, length, bar, kind in found) == (9, 20 if kind == NOTIFIES else 16, 0, False)
        found[kind] = offset, size, client.configuration(at + 16) if kind == NOTIFIES else None
        at = follows
    assert found == {
        COMMON: (0, 56, None),
        NOTIFIES: (NOTIFY, 4096, 4),
        INTERRUPTS: (ISR, 4, None),
        CONFIGURATION: (DEVICE, 16, None),
    }
    # A device of no other class, of revision 1, as QEMU's balloon.
    assert client.configuration(8) == 0x00FF0001


def test_features(client):
    for select, offered in ((0, 0x27), (1, 1), (2, 0), (3, 0), (0xFFFFFFFF, 0)):
        client.write(OFFER_SELECT, select)
        assert (client.read(OFFER_SELECT), client.read(OFFERED)) == (select, offered)
    for select, accepted in ((1, 1), (0, 5), (2, 7), (0xFFFFFFFF, 7)):
        client.write(ACCEPT_SELECT, select), client.write(ACCEPTED, accepted)
        assert (client.read(ACCEPT_SELECT), client.read(ACCEPTED)) == (
            select,
            accepted if select < 2 else 0,
        )
    client.write(ACCEPT_SELECT, 0)
    assert (client.read(ACCEPTED), client.read(MSIX, 2), client.read(QUEUES, 2)) == (5, 0xFFFF, 5)


# Not offered; without VERSION_1.
@pytest.mark.parametrize(
    "features, why", ((0x10000002F, "a feature that isn't offered"), (0x27, "VERSION_1 is missing"))
)
def test_features_that_are_refused(serve, features, why):
    client, said = serve(), f"the driver's status 11 is refused: {why}"
    client.negotiate(features)
    assert (client.read(STATUS, 1), client.backend.why()) == (3, said)
    assert client.close() == (0, said)


def test_a_queue_s_registers(client):
    client.negotiate(0x100000021)
    assert [queue(client, it) for it in range(5)] == [UNPLACED] * 3 + [ABSENT] * 2
    for number in range(3):
        client.write(SELECT, number, 2)
        assert (client.read(SELECT, 2), client.read(NOTIFY_OFF, 2)) == (number, number)
    client.write(SIZE, 64, 2)
    for value in (0xFFFFFFFF, 0x12345000):
        for it in range(0, 24, 4):
            client.write(PLACE + it, value + it & 0xFFFFFFFF)
    client.write(ENABLE, 0, 2)
    assert queue(client, 2) == [64, 0xFFFF, 0, *(0x12345000 + it for it in range(0, 24, 4))]
    client.place(1)
    placed = [QUEUE_SIZE, 0xFFFF, 1, *(it for page in (3, 4, 5) for it in (page * PAGE, 0))]
    for at, value in ((SIZE, 4), (PLACE, 0), (PLACE + 20, 1), (ENABLE, 0)):
        client.write(at, value)
        assert queue(client, 1) == placed
    assert [queue(client, it)[2] for it in range(4)] == [0, 1, 0, 0]


def test_a_reset_clears(client):
    client.start()
    client.write(STATUS, 0, 1)
    assert client.read(STATUS, 1) == 0
    for half in (0, 1):
        client.write(ACCEPT_SELECT, half)
        assert client.read(ACCEPTED) == 0
    client.negotiate()
    assert [queue(client, it) for it in range(4)] == [UNPLACED] * 4


def fill(client, number, size):
    """Makes a queue's ring full of requests, and doesn't kick it."""
    table = b"".join(struct.pack("<QIHH", BUFFERS, 4, 0, 0) for _ in range(size))
    os.pwrite(client.memory, table, 3 * number * PAGE)
    os.pwrite(client.memory, struct.pack("<I", 20), BUFFERS)
    ring = struct.pack(f"<HH{size}H", 1, size, *range(size))
    os.pwrite(client.memory, ring, (3 * number + 1) * PAGE)


@pytest.mark.parametrize("number", (0, 1))
def test_what_is_posted_before_a_driver_is_ready_is_served_without_a_kick(client, number):
    size = 256
    client.negotiate()
    for it in (0, 1):
        client.place(it, size)
    fill(client, number, size)
    client.write(STATUS, 15, 1)
    eventually(lambda: client.backend.counters()["chains"] == size, "some aren't served")


def test_a_reset_ends_what_is_left(client):
    size = 256
    client.negotiate()
    client.place(0, size)
    client.write(STATUS, 15, 1)
    fill(client, 0, size)
    process = client.backend.process.pid
    os.kill(process, signal.SIGSTOP)  # so that the reset follows the kick at once
    for at in (NOTIFY, STATUS):
        client.send(BAR_WRITE, struct.pack("<QQIB", at, 0, 2, 1))
    os.kill(process, signal.SIGCONT)
    assert [client.answer() for _ in range(2)] == [0, 0]
    assert client.read(STATUS, 1) == 0
    assert client.backend.counters()["chains"] < size


def test_a_driver_that_has_failed(client):
    client.start()
    client.write(STATUS, 15 | 128, 1)
    assert client.read(STATUS, 1) == 15 | 128


def test_kicks_that_are_none(client):
    client.negotiate(0x100000021)
    client.place(0)
    client.post(0, [40])  # before the driver is ready
    assert (client.read(STATUS, 1), client.backend.counters()["chains"]) == (11, 0)
    client.write(STATUS, 15, 1)
    for number in (1, 2, 3, 4, 5, 1023):  # of which two are queues that aren't enabled
        client.write(NOTIFY + 4 * number, number, 2)
    client.write(ISR, 0)
    counters = client.backend.counters()
    assert [counters[it] for it in ("chains", "kicks", "status")] == [1, 7, 15]


def test_the_device_s_configuration(client):
    client.start()
    client.backend.ask(f"target {0x01020304}")
    client.write(DEVICE + 4, 0x05060708)
    for at, length, value in (
        (0, 1, 4),
        (1, 2, 0x0203),
        (3, 4, 0x06070801),
        (0, 8, 0x0506070801020304),
        (4, 4, 0x05060708),
        (8, 8, 0),
    ):
        assert client.read(DEVICE + at, length) == value, (at, length)
    for at, length in ((0, 4), (4, 2), (3, 4), (8, 4), (12, 4)):
        client.write(DEVICE + at, 9, length)
        assert client.read(DEVICE, 8) == 0x0506070801020304, (at, length)
    for at, value, actual in (
        (4, 9, 9),
        (0, 0x0708090A00000005, 0x0708090A),
    ):  # covered whole, beside what isn't written
        client.write(DEVICE + at, value, 8)
        assert client.read(DEVICE, 8) == actual << 32 | 0x01020304, (at, value)


def test_interrupts(client):
    client.negotiate()
    time.sleep(0.2)  # nothing is told before the driver is ready
    assert (client.read(ISR, 1), client.read(GENERATION, 1)) == (0, 0)
    client.start()
    client.backend.ask("target 7")
    client.post(0, [40])
    assert (client.backend.counters()["interrupts"], client.read(ISR, 1) & 3) == (1, 3)
    assert (client.read(GENERATION, 1), os.eventfd_read(client.interrupt)) == (1, 2)
    # A read clears it; a driver that looks by itself gets another one.
    eventually(lambda: client.read(ISR, 1) == 0, "a read doesn't clear the interrupts")
    eventually(
        lambda: time.sleep(0.1) or client.read(ISR, 1) == 1,
        "a driver that looks by itself finds nothing",
    )


# A part of a processor, and the seconds for which is looked at what a process has of it.
LITTLE, LOOKED = 0.05, 0.4


def test_a_backend_sleeps_between_the_interrupts_of_a_driver_that_does_nothing(client):
    client.start()
    process = client.backend.process.pid

    def part():
        before, begin = seconds_of(process), time.monotonic()
        time.sleep(LOOKED)
        return (seconds_of(process) - before) / (time.monotonic() - begin)

    eventually(lambda: part() < LITTLE, "it never sleeps")


def test_memory_in_two_regions(client):
    half = PAGES // 2
    files = client.open_files()
    for _ in range(2):
        client.hand_over([(0, half * PAGE, 0), (100 * PAGE, half * PAGE, half * PAGE)])
    assert client.open_files() == files + 1
    client.start()
    client.post(0, [20, 100 + 8, 100 + half - 1])
    counters = client.backend.counters()
    assert [counters[it] for it in ("end", "inflated", "discarded")] == [100 + half, 3, 3]
    holes = [
        it for it in range(PAGES) if os.lseek(client.memory, it * PAGE, os.SEEK_HOLE) == it * PAGE
    ]
    assert holes == [20, half + 8, PAGES - 1]


def test_files_that_nobody_wants_are_closed(client):
    files = client.open_files()
    for _ in range(2):
        client.send(SET_INTERRUPT, files=[client.interrupt, client.memory])
    client.send(CONFIGURATION_READ, struct.pack("<III", 0, 0, 4), [client.memory])
    assert client.answer() == client.configuration(0)
    assert client.open_files() == files
    client.start()
    client.post(0, [40])
    assert (client.read(STATUS, 1), os.eventfd_read(client.interrupt)) == (15, 1)


GOOD, BAD = (0, PAGE, 0), (PAGE, PAGE + 1, 0)


@pytest.mark.parametrize("regions", ([BAD], [BAD, GOOD], [GOOD, BAD], [GOOD, GOOD]))
def test_memory_that_cannot_be_mapped(serve, regions):
    client = serve()
    client.hand_over(regions)
    assert client.socket.recv(24) == b""
    assert client.close() == (1, "refused: the guest's memory can't be mapped")


@pytest.mark.parametrize(
    "size, said", ((256, (0, "")), (257, (1, "refused: the client's bytes are no message")))
)
def test_the_longest_message(serve, size, said):
    client = serve()
    client.send(
        SYNC_MEMORY,
        struct.pack("<24Q", *[0] * 8, 32 * PAGE, *[0] * 15).ljust(size, b"\0"),
        [client.memory],
    )
    if size == 256:
        assert (client.read(STATUS), client.backend.counters()["end"]) == (0, 32)
    assert client.close() == said
