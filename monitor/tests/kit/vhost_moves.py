"""A device that moves: its bytes, and how a client has it saved and loaded."""

import os
import struct

from vhost_client import (
    CHECK_DEVICE_STATE,
    INFLATE,
    MIGRATION,
    PAGE,
    QEMU_PROTOCOL,
    SET_CONFIG,
    SET_DEVICE_STATE_FD,
    STATE_BYTES,
)
from vhost_demands import demand_served

SAVE, LOAD = 0, 1
PROTOCOL = QEMU_PROTOCOL | MIGRATION

# Bytes of a device before its set; of its sum (docs/LINUX.md, "Migration").
HEAD, SUM = 32 + STATE_BYTES, 8

# Where what is given up of a guest is in the control area; who writes it.
COMES_AT, OF_CLIENT = 208, 1

# No file comes back; and it isn't so.
WELL, BADLY = struct.pack("<Q", 0x100), struct.pack("<Q", 0x101)
FINE, WRONG = bytes(8), struct.pack("<Q", 1)


def sum_of(data):
    """Returns FNV-1a with 64 bits."""
    number = 0xCBF29CE484222325
    for it in data:
        number = (number ^ it) * 0x100000001B3 & (1 << 64) - 1
    return struct.pack("<Q", number)


def edited(data, at, new):
    """Returns a device's bytes with others in place of some, and the right sum."""
    body = data[:at] + new + data[at + len(new) : -SUM]
    return body + sum_of(body)


def comes(client, given, pages):
    """Says that a client's guest of `pages` pages comes from another host, with `given` of them
    given up; returns the answer."""
    words = (COMES_AT, 8, OF_CLIENT, given, pages)
    return client.send(SET_CONFIG, struct.pack("<IIIII", *words))


def ask(client, file, direction, phase=0):
    """Hands a pipe over; returns the answer."""
    answer = client.send(SET_DEVICE_STATE_FD, struct.pack("<II", direction, phase), [file])
    os.close(file)
    return answer


def saved(client):
    """Returns a device's bytes, whose queues are stopped."""
    ours, theirs = os.pipe()
    assert ask(client, theirs, SAVE) == WELL
    with open(ours, "rb") as file:
        data = file.read()
    assert client.send(CHECK_DEVICE_STATE) == FINE
    return data


def load(client, data):
    """Has a client's backend load a device; returns whether it does."""
    theirs, ours = os.pipe()
    assert ask(client, theirs, LOAD) == WELL
    with open(ours, "wb") as file:
        file.write(data)
    answer = client.send(CHECK_DEVICE_STATE)
    assert answer in (FINE, WRONG)
    return answer == FINE


def with_pages(client, pages, target):
    """Has these pages in the balloon of a client whose queues run, with this target."""
    client.backend.ask(f"target {target}")
    demand_served(client, INFLATE, pages)
    client.accepted(SET_CONFIG, struct.pack("<IIII", 4, 4, 0, len(pages)))


def stopped(client):
    """Stops all queues; returns where each continues."""
    return [client.stop_ring(it) for it in range(4)]


def moved_memory(client, other):
    """Gives another client the guest's memory: each byte that isn't in a hole."""
    for file, copy in zip(client.files, other.files):
        os.truncate(copy, 0)
        os.truncate(copy, os.fstat(file).st_size)
        for page in range(client.pages_of_region):
            data = os.pread(file, PAGE, page * PAGE)
            if data != bytes(PAGE):
                os.pwrite(copy, data, page * PAGE)
    other.available = list(client.available)


def arrive(client, serve, protocol=PROTOCOL):
    """Returns a client of another backend with the same guest, which isn't started yet, and where
    its queues go on."""
    bases = stopped(client)
    data = saved(client)
    other = serve()
    other.begin(protocol)
    assert load(other, data)
    moved_memory(client, other)
    return other, bases
