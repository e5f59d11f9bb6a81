"""Tests of messages that a backend refuses, each by its line: wrong bodies, files and moments."""

import struct

import pytest
from vhost_client import (
    ADD_MEM_REG,
    GET_CONFIG,
    GET_STATUS,
    GET_VRING_BASE,
    NO_FILE,
    PAGE,
    PAGES_OF_REGION,
    REGIONS,
    SET_BACKEND_REQ_FD,
    SET_CONFIG,
    SET_FEATURES,
    SET_MEM_TABLE,
    SET_PROTOCOL_FEATURES,
    SET_VRING_ADDR,
    SET_VRING_BASE,
    SET_VRING_CALL,
    SET_VRING_ENABLE,
    SET_VRING_ERR,
    SET_VRING_KICK,
    SET_VRING_NUM,
    VRING_KICK,
)
from vhost_demands import demand_refused

# A body with the first number that is no queue's; where the parts of a queue are, and with one of
# them a page further.
NO_QUEUE = struct.pack("<II", 5, 0)
PARTS = [REGIONS[0][1] + it * PAGE for it in (3, 5, 4)]
MOVED = [[place + (part == it) * PAGE for it, place in enumerate(PARTS)] for part in range(3)]

# What is said, and the message: its number, its body, and how many files.
MESSAGES = (
    ("message 99 is unknown", 99, b"", 0),
    ("no queue 5", SET_VRING_NUM, NO_QUEUE, 0),
    ("no queue 5", SET_VRING_ADDR, NO_QUEUE + bytes(32), 0),
    ("no queue 5", SET_VRING_BASE, NO_QUEUE, 0),
    ("no queue 5", GET_VRING_BASE, NO_QUEUE, 0),
    ("no queue 5", SET_VRING_ENABLE, struct.pack("<II", 5, 1), 0),
    ("no queue 5", SET_VRING_KICK, NO_QUEUE, 1),
    ("no queue 5", SET_VRING_CALL, NO_QUEUE, 1),
    ("no queue 5", SET_VRING_ERR, NO_QUEUE, 1),
    ("no queue 5", VRING_KICK, NO_QUEUE, 0),
    ("queue 1 runs", SET_VRING_NUM, struct.pack("<II", 1, 8), 0),
    ("queue 1 runs", SET_VRING_BASE, struct.pack("<II", 1, 0), 0),
    *(
        ("queue 1 runs, and can't move", SET_VRING_ADDR, struct.pack("<IIQQQQ", 1, 0, *it, 0), 0)
        for it in MOVED
    ),
    ("0 files for an event of queue 1", SET_VRING_CALL, struct.pack("<Q", 1), 0),
    ("1 files for an event of queue 1", SET_VRING_CALL, struct.pack("<Q", 1 | NO_FILE), 1),
    ("by the word 0x401", SET_VRING_CALL, struct.pack("<Q", 0x401), 1),
    ("a file of queue 1 is no event", SET_VRING_CALL, struct.pack("<Q", 1), 1),
    ("the channel is no socket", SET_BACKEND_REQ_FD, b"", 1),
    ("features 0x100000021 while queues run", SET_FEATURES, struct.pack("<Q", 0x100000021), 0),
    ("protocol features 0x4 aren't offered", SET_PROTOCOL_FEATURES, struct.pack("<Q", 4), 0),
    ("SET_MEM_TABLE has 0 files", SET_MEM_TABLE, struct.pack("<II", 2, 0) + bytes(64), 0),
    ("SET_MEM_TABLE has 39 bytes", SET_MEM_TABLE, struct.pack("<II", 1, 0) + bytes(31), 1),
    ("SET_MEM_TABLE has 296 bytes", SET_MEM_TABLE, struct.pack("<II", 9, 0) + bytes(288), 8),
    (
        "a memory table of 2 regions with 1 files",
        SET_MEM_TABLE,
        struct.pack("<II", 2, 0) + bytes(64),
        1,
    ),
    (
        "a memory table of 2 regions with 2 files",
        SET_MEM_TABLE,
        struct.pack("<II", 2, 0) + bytes(32),
        2,
    ),
    ("SET_MEM_TABLE has 8 files and more", SET_MEM_TABLE, struct.pack("<II", 8, 0) + bytes(256), 9),
    ("can't be mapped", SET_MEM_TABLE, struct.pack("<IIQQQQ", 1, 0, 0, 0, 0, 0), 1),
    (
        "can't be mapped",
        SET_MEM_TABLE,
        struct.pack("<IIQQQQ", 1, 0, 2**64 - PAGE, 2 * PAGE, 0, 0),
        1,
    ),
    ("can't be mapped", SET_MEM_TABLE, struct.pack("<IIQQQQ", 1, 0, 0, PAGE, 0, 1), 1),
    (
        "can't be mapped",
        SET_MEM_TABLE,
        struct.pack("<IIQQQQ", 1, 0, 0, 2 * PAGE, 2**64 - PAGE, 0),
        1,
    ),
    (
        "can't be mapped",
        SET_MEM_TABLE,
        struct.pack("<IIQQQQ", 1, 0, 0, 2 * PAGE, 0, 2**64 - PAGE),
        1,
    ),
    ("can't be mapped", SET_MEM_TABLE, struct.pack("<IIQQQQ", 1, 0, 0, PAGE, 0, 2**63), 1),
    (
        "can't be mapped",
        SET_MEM_TABLE,
        struct.pack("<IIQQQQ", 1, 0, 0, PAGE, 0, PAGES_OF_REGION * PAGE),
        1,
    ),
    ("can't be mapped", SET_MEM_TABLE, struct.pack("<IIQQQQ", 1, 0, 0, PAGE + 1, 0, 0), 1),
    ("can't be mapped", SET_MEM_TABLE, struct.pack("<IIQQQQ", 1, 0, 1, PAGE, 0, 0), 1),
    ("can't be mapped", SET_MEM_TABLE, struct.pack("<IIQQQQ", 1, 0, 0, PAGE * 65, 0, 0), 1),
    (
        "can't be mapped",
        SET_MEM_TABLE,
        struct.pack("<II8Q", 2, 0, 0, PAGE * 2, 0, 0, PAGE, PAGE, 1 << 40, 0),
        2,
    ),
    (
        "can't be mapped",
        SET_MEM_TABLE,
        struct.pack("<II8Q", 2, 0, 0, PAGE, 0, 0, PAGE, PAGE, PAGE - 1, 0),
        2,
    ),
    (
        "can't be mapped",
        SET_MEM_TABLE,
        struct.pack("<II8Q", 2, 0, PAGE, PAGE, 0, 0, 0, PAGE * 2, 1 << 40, 0),
        2,
    ),
    (
        "can't be mapped",
        SET_MEM_TABLE,
        struct.pack("<II8Q", 2, 0, 0, PAGE, PAGE, 0, PAGE, PAGE * 2, 0, 0),
        2,
    ),
    (
        "isn't in the guest's memory any longer",
        SET_MEM_TABLE,
        struct.pack("<IIQQQQ", 1, 0, 0, 2 * PAGE, 0, 0),
        1,
    ),
    ("too far up", SET_MEM_TABLE, struct.pack("<IIQQQQ", 1, 0, (1 << 44) - PAGE, PAGE, 0, 0), 1),
    ("ADD_MEM_REG isn't negotiated", ADD_MEM_REG, bytes(40), 1),
    ("GET_STATUS isn't negotiated", GET_STATUS, b"", 0),
    ("GET_CONFIG has 0 bytes", GET_CONFIG, b"", 0),
    (
        "4000 bytes of the configuration, in a message with 0",
        GET_CONFIG,
        struct.pack("<III", 0, 4000, 0),
        0,
    ),
    (
        "5 bytes of the configuration, in a message with 4",
        SET_CONFIG,
        struct.pack("<IIII", 4, 5, 0, 0),
        0,
    ),
)


@pytest.mark.parametrize("words, number, body, files", MESSAGES)
def test_messages(serve_ready, words, number, body, files):
    client = serve_ready()
    client.send(number, body, [client.files[0]] * files, flags=1)
    demand_refused(client, words)
