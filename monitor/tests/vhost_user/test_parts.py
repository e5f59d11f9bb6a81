"""Tests of messages whose bytes come in parts, or several at once, and of files beside them: what
comes after a message is the next one's, whatever was read at once."""

import array
import contextlib
import fcntl
import os
import signal
import socket
import struct
import termios

import pytest
from vhost_client import (
    DEFLATE,
    GET_FEATURES,
    GET_PROTOCOL_FEATURES,
    GET_QUEUE_NUM,
    INFLATE,
    OFFERED,
    PAGE,
    SET_BACKEND_REQ_FD,
    SET_MEM_TABLE,
    SET_PROTOCOL_FEATURES,
    SET_VRING_ADDR,
    SET_VRING_BASE,
    SET_VRING_CALL,
)
from vhost_demands import demand_refused, word
from waiting import eventually

# Bytes of a head, and of the messages that are read whole with it.
HEAD, SHORT = 12, 20


def message(request, body=b"", flags=9):
    """Returns the bytes of a message, which wants an answer."""
    return struct.pack("<III", request, flags, len(body)) + body


def put(client, data, files=()):
    """Writes bytes at once, with files beside them."""
    control = [(socket.SOL_SOCKET, socket.SCM_RIGHTS, array.array("i", files))] if files else []
    assert client.socket.sendmsg([data], control) == len(data)


def is_read(client):
    """Waits until the backend has read all."""

    def left():
        return struct.unpack("i", fcntl.ioctl(client.socket, termios.TIOCOUTQ, bytes(4)))[0]

    eventually(lambda: left() == 0)


@contextlib.contextmanager
def at_once(client):
    """What is written meanwhile has come before the backend reads."""
    os.kill(client.backend.process.pid, signal.SIGSTOP)
    yield
    os.kill(client.backend.process.pid, signal.SIGCONT)


@pytest.fixture
def client(serve_well):
    it = serve_well()
    it.accepted(SET_PROTOCOL_FEATURES, word(OFFERED))
    return it


@pytest.fixture
def event():
    """The file of an event."""
    it = os.eventfd(0, os.EFD_NONBLOCK)
    yield it
    os.close(it)


CALL = message(SET_VRING_CALL, struct.pack("<Q", INFLATE))
ADDRESSES = message(SET_VRING_ADDR, struct.pack("<IIQQQQ", INFLATE, *range(5)))
GETS = message(GET_QUEUE_NUM)


def is_accepted(client, request, body=bytes(8)):
    """The next answer is of this message."""
    assert client.receive() == (request, body), client.why()


@pytest.mark.parametrize("cut", range(1, SHORT))
def test_a_message_in_two_parts(client, event, cut):
    put(client, CALL[:cut], [event]), is_read(client)
    put(client, CALL[cut:])
    is_accepted(client, SET_VRING_CALL)


@pytest.mark.parametrize("cut", (1, HEAD - 1, HEAD, HEAD + 1, SHORT - 1))
@pytest.mark.parametrize("waits", (True, False))
def test_files_beside_later_bytes(client, event, cut, waits):
    """They are the message's in whose bytes they come."""
    with contextlib.nullcontext() if waits else at_once(client):
        put(client, CALL[:cut])
        is_read(client) if waits else None
        put(client, CALL[cut:], [event])
    is_accepted(client, SET_VRING_CALL)


@pytest.mark.parametrize("cut", range(1, len(ADDRESSES), 3))
def test_a_longer_message_in_two_parts(client, cut):
    put(client, ADDRESSES[:cut]), is_read(client)
    put(client, ADDRESSES[cut:])
    is_accepted(client, SET_VRING_ADDR)


def test_messages_in_one_write(client):
    """Of each length, in each order of two."""
    base = message(SET_VRING_BASE, struct.pack("<II", DEFLATE, 3))
    answers = {
        GETS: (GET_QUEUE_NUM, struct.pack("<Q", 5)),
        base: (SET_VRING_BASE, bytes(8)),
        ADDRESSES: (SET_VRING_ADDR, bytes(8)),
    }
    said = [it for one in answers for other in answers for it in (one, one, other)]
    put(client, b"".join(said))
    for it in said:
        is_accepted(client, *answers[it])


def test_each_byte_by_itself(client):
    """Also of the message after one without a body."""
    for it in GETS + ADDRESSES + GETS:
        put(client, bytes([it])), is_read(client)
    is_accepted(client, GET_QUEUE_NUM, struct.pack("<Q", 5))
    is_accepted(client, SET_VRING_ADDR)
    is_accepted(client, GET_QUEUE_NUM, struct.pack("<Q", 5))


def test_files_of_the_next_message(client, event):
    """They were read with the one before, which has no body and no file."""
    for _ in range(3):
        with at_once(client):
            put(client, GETS), put(client, CALL, [event]), put(client, GETS)
        is_accepted(client, GET_QUEUE_NUM, struct.pack("<Q", 5))
        is_accepted(client, SET_VRING_CALL)
        is_accepted(client, GET_QUEUE_NUM, struct.pack("<Q", 5))


def test_more_files_than_the_next_message_may_have(serve, event):
    client = serve()
    client.accepted(SET_PROTOCOL_FEATURES, word(OFFERED))
    with at_once(client):
        put(client, GETS), put(client, CALL, [event] * 9)
    is_accepted(client, GET_QUEUE_NUM, struct.pack("<Q", 5))
    demand_refused(client, "SET_VRING_CALL has 8 files and more")


@pytest.mark.parametrize(
    "files, words",
    (((4, 4), ""), ((5, 4), "has 8 files and more"), ((4, 5), "has 8 files and more")),
)
def test_the_most_files_of_a_message_in_parts(serve, files, words):
    """They are counted over its parts: a table of eight regions has as many files."""
    client = serve()
    client.accepted(SET_PROTOCOL_FEATURES, word(OFFERED))
    regions = [struct.pack("<4Q", it * PAGE, PAGE, it << 32, 0) for it in range(8)]
    table = message(SET_MEM_TABLE, struct.pack("<II", 8, 0) + b"".join(regions))
    put(client, table[:100], files[0] * client.files[:1]), is_read(client)
    put(client, table[100:], files[1] * client.files[:1])
    if words:
        demand_refused(client, f"SET_MEM_TABLE {words}")
    else:
        is_accepted(client, SET_MEM_TABLE)
        assert (client.counter("end"), client.close()) == (8, (0, ""))


def test_more_files_with_each_part_of_a_message(serve, event):
    """It is refused before it is whole, as each would leave files open."""
    client = serve()
    client.accepted(SET_PROTOCOL_FEATURES, word(OFFERED))
    before, parts = client.open_files(), message(SET_MEM_TABLE, bytes(40))
    for at in range(2):
        put(client, parts[at : at + 1], [event] * 8), is_read(client)
    assert client.open_files() == before + 16
    put(client, parts[2:3], [event] * 8)
    demand_refused(client, "the client's bytes are no message")


def test_files_of_the_first_of_two_in_one_write(client):
    put(client, message(SET_BACKEND_REQ_FD) + GETS, [client.theirs.fileno()])
    is_accepted(client, SET_BACKEND_REQ_FD)
    is_accepted(client, GET_QUEUE_NUM, struct.pack("<Q", 5))


def test_files_that_no_message_before_them_has(serve, event):
    client = serve()
    put(client, message(GET_FEATURES), [event])
    demand_refused(client, "GET_FEATURES has 1 files")


def test_a_client_that_goes_amid_a_message(serve_well, event):
    """Also where the file of that one has come."""
    client = serve_well()
    with at_once(client):
        put(client, message(GET_PROTOCOL_FEATURES)), put(client, CALL[:9], [event])
    assert client.receive()[0] == GET_PROTOCOL_FEATURES
