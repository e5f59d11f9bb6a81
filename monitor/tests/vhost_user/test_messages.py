"""Tests of each message of a client as vhost-user has it (QEMU's docs/interop/vhost-user.rst): its
bytes, its files, and its protocol feature; and of messages that come in pieces."""

import array
import fcntl
import re
import select
import socket
import struct
import termios

import linux_kit
import pytest
import vhost_client
from vhost_client import (
    GET_FEATURES,
    INFLATE,
    MIGRATION,
    OFFERED,
    SET_MEM_TABLE,
    SET_PROTOCOL_FEATURES,
)
from vhost_demands import FIRST, demand_refused, word
from waiting import PATIENCE, eventually

# Numbers of protocol features.
MQ, LOG_SHMFD, BACKEND_REQ, CONFIG, RESET_DEVICE, INBAND, MEM_SLOTS = 0, 1, 5, 9, 13, 14, 15
STATUS, DEVICE_STATE = 16, 19

# Bytes of a table of memory by its regions, and of a configuration by its own; and both of one
# region.
TABLE, CONFIGURATION, SLOT = (8 + 32, 8 + 8 * 32), (12, 12 + 256), 8 + 32

# Of each message: the least and the most bytes, or how many; the least and the most files; its
# feature.
MESSAGES = {
    **dict.fromkeys("GET_FEATURES SET_OWNER RESET_OWNER GET_PROTOCOL_FEATURES".split(), (0,)),
    **dict.fromkeys("SET_FEATURES SET_PROTOCOL_FEATURES".split(), (8,)),
    **dict.fromkeys("SET_VRING_NUM SET_VRING_BASE GET_VRING_BASE SET_VRING_ENABLE".split(), (8,)),
    **dict.fromkeys("SET_VRING_KICK SET_VRING_CALL SET_VRING_ERR".split(), (8, (0, 1))),
    "SET_MEM_TABLE": (TABLE, (1, 8)),
    "SET_VRING_ADDR": (40,),
    "GET_QUEUE_NUM": (0, 0, MQ),
    "SET_BACKEND_REQ_FD": (0, 1, BACKEND_REQ),
    "GET_CONFIG": (CONFIGURATION, 0, CONFIG),
    "SET_CONFIG": (CONFIGURATION, 0, CONFIG),
    "RESET_DEVICE": (0, 0, RESET_DEVICE),
    "VRING_KICK": (8, 0, INBAND),
    "GET_MAX_MEM_SLOTS": (0, 0, MEM_SLOTS),
    "ADD_MEM_REG": (SLOT, 1, MEM_SLOTS),
    "REM_MEM_REG": (SLOT, (0, 1), MEM_SLOTS),
    "SET_STATUS": (8, 0, STATUS),
    "GET_STATUS": (0, 0, STATUS),
    "SET_LOG_BASE": (16, 1, LOG_SHMFD),
    "SET_DEVICE_STATE_FD": (8, 1, DEVICE_STATE),
    "CHECK_DEVICE_STATE": (0, 0, DEVICE_STATE),
}


def bounds(its):
    """Returns the least and the most of a number that has one bound or two."""
    return its if isinstance(its, tuple) else (its, its)


def rule_of(name):
    """Returns the bounds of a message's bytes and files, and its feature."""
    size, files, feature = (*MESSAGES[name], *(0, None)[len(MESSAGES[name]) - 1 :])
    return bounds(size), bounds(files), feature


def send(client, name, size, files):
    """Sends a message with this many bytes and files."""
    number = getattr(vhost_client, name)
    client.send(number, bytes(size), [client.files[0]] * files, flags=1)


def test_each_message_has_its_rule():
    with open(f"{linux_kit.MONITOR}/backends/vhost/messages.c", encoding="utf-8") as source:
        assert set(re.findall(r"(?m)^    \[(\w+)\] = \{", source.read())) == set(MESSAGES)


@pytest.mark.parametrize("name", MESSAGES)
def test_too_few_or_too_many_bytes_or_files(serve, name):
    sizes, files, _ = rule_of(name)
    wrong = [(it, files[0], f"{it} bytes") for it in (sizes[0] - 1, sizes[1] + 1)]
    wrong += [(sizes[0], it, f"{min(it, 8)} files") for it in (files[0] - 1, files[1] + 1)]
    for size, count, words in wrong:
        if size >= 0 and count >= 0:
            client = serve()
            send(client, name, size, count)
            demand_refused(client, f"{name} has {words}")


# Bytes that a message's body may have at most (vhost_user.h), whatever message it is.
MOST_BODY = 512


@pytest.mark.parametrize(
    "more, words", ((0, f"SET_CONFIG has {MOST_BODY} bytes"), (1, "bytes are no message"))
)
def test_the_longest_body(serve, more, words):
    client = serve()
    send(client, "SET_CONFIG", MOST_BODY + more, 0)
    demand_refused(client, words)


# Numbers of messages that a backend has no rule for, up to the first after the last one that has
# one, and what a client may say besides.
NUMBERS = {getattr(vhost_client, it) for it in MESSAGES}
NO_NUMBERS = sorted({*range(max(NUMBERS) + 2), 2**31, 2**32 - 1} - NUMBERS)


@pytest.mark.parametrize("number", NO_NUMBERS)
def test_a_message_without_a_rule(serve, number):
    """With another one after it, which is read with its head."""
    client = serve()
    client.socket.sendall(struct.pack("<6I", number, 1, 0, GET_FEATURES, 1, 0))
    demand_refused(client, f"message {number} is unknown")


@pytest.mark.parametrize("name", MESSAGES)
def test_the_fewest_and_the_most_bytes_and_files(serve, name):
    sizes, files, _ = rule_of(name)
    for size, count in {(sizes[0], files[0]), (sizes[1], files[1])}:
        client = serve()
        client.accepted(SET_PROTOCOL_FEATURES, word(OFFERED | MIGRATION))
        send(client, name, size, count)
        said = client.close()[1]
        assert f"{name} has" not in said and "negotiated" not in said, said


@pytest.mark.parametrize("name", [it for it in MESSAGES if rule_of(it)[2] is not None])
def test_a_message_wants_its_feature(serve, name):
    sizes, files, feature = rule_of(name)
    client = serve()
    client.accepted(SET_PROTOCOL_FEATURES, word((OFFERED | MIGRATION) & ~(1 << feature)))
    send(client, name, sizes[0], files[0])
    demand_refused(client, f"{name} isn't negotiated")


# Bytes of a piece, which is neither a head nor a body.
PIECE = 5


class InPieces:
    """A socket whose messages go in pieces, each once those before it have been read."""

    def __init__(self, whole):
        self.whole = whole

    def __getattr__(self, name):
        return getattr(self.whole, name)

    def unread(self):
        """Returns how much the other end has to read."""
        return struct.unpack("i", fcntl.ioctl(self.whole, termios.TIOCOUTQ, bytes(4)))[0]

    def sendmsg(self, parts, control=()):
        """Sends a message, its files with the first piece."""
        data = b"".join(parts)
        for at in range(0, len(data), PIECE):
            self.whole.sendmsg([data[at : at + PIECE]], control if at == 0 else [])
            eventually(lambda: self.unread() == 0)


def test_messages_may_come_in_pieces(serve_well):
    client = serve_well()
    client.socket = InPieces(client.socket)
    client.start()
    client.post_pages(INFLATE, [FIRST])
    assert (client.told(), client.used(INFLATE)[0]) == (INFLATE, 1)


def test_files_that_are_too_many_in_two_pieces(serve):
    """Neither piece has more than the message may have."""
    client, (_, size), (_, most) = serve(), *rule_of("SET_MEM_TABLE")[:2]
    pieces, head = InPieces(client.socket), struct.pack("<III", SET_MEM_TABLE, 1, size)
    for data, count in ((head, most), (bytes(size), 1)):
        files = array.array("i", [client.files[0]] * count)
        client.socket.sendmsg([data], [(socket.SOL_SOCKET, socket.SCM_RIGHTS, files)])
        eventually(lambda: pieces.unread() == 0)
    demand_refused(client, f"SET_MEM_TABLE has {most} files and more")


def test_who_goes_before_it_has_read_its_answer_has_gone(serve_well):
    client = serve_well()
    client.send(GET_FEATURES, flags=1)
    assert select.select([client.socket], [], [], PATIENCE)[0]
