"""Tests of files that call a client and that a client kicks by: full ones, shared ones, pipes and
sockets."""

import os
import select
import signal
import socket
import struct
import time

from vhost_client import (
    BUFFERS,
    DEFLATE,
    INFLATE,
    NO_FILE,
    QEMU_PROTOCOL,
    SET_PROTOCOL_FEATURES,
    SET_VRING_CALL,
    SET_VRING_ENABLE,
    SET_VRING_KICK,
)
from vhost_demands import FIRST, MOMENT, word
from waiting import PATIENCE, eventually


# The protocol feature by which a channel comes.
BACKEND_REQ = 1 << 5


def test_pipes_and_sockets_for_calls(start_by_events):
    client = start_by_events()
    for ends in (os.pipe(), tuple(it.detach() for it in socket.socketpair())):
        os.close(client.calls[INFLATE])
        client.calls[INFLATE], theirs = ends
        client.accepted(SET_VRING_CALL, word(INFLATE), [theirs])
        assert client.said(INFLATE) == word(1)  # who is called again may have missed a call
        client.post_pages(INFLATE, [FIRST])
        assert client.said(INFLATE) == word(1)
        os.close(theirs)


def test_a_call_for_which_there_is_no_room(start_by_events):
    client = start_by_events()
    os.eventfd_write(client.calls[INFLATE], 2**64 - 2)
    os.set_blocking(client.calls[INFLATE], True)
    client.post_pages(INFLATE, [FIRST])
    time.sleep(MOMENT)
    assert (client.counter("interrupts"), client.used(INFLATE)[0]) == (1, 1)


def test_a_call_that_is_full_as_it_comes(start_by_events):
    client = start_by_events()
    full = os.eventfd(0, os.EFD_NONBLOCK)
    os.eventfd_write(full, 2**64 - 2)
    client.accepted(SET_VRING_CALL, word(INFLATE), [full])
    assert os.eventfd_read(full) == 2**64 - 2
    client.post_pages(INFLATE, [FIRST])
    assert select.select([full], [], [], PATIENCE)[0] and os.eventfd_read(full) == 1
    os.close(full)


def test_a_call_to_a_pipe_or_a_socket_that_is_full(start_by_events):
    client = start_by_events()
    for count, ends in enumerate((os.pipe(), tuple(it.detach() for it in socket.socketpair())), 1):
        os.set_blocking(ends[1], False)
        try:
            while os.write(ends[1], bytes(8)):
                pass
        except BlockingIOError:
            pass
        client.accepted(SET_VRING_CALL, word(INFLATE), [ends[1]])
        os.set_blocking(ends[1], True)
        client.post_pages(INFLATE, [FIRST])
        time.sleep(MOMENT)
        assert (client.counter("interrupts"), client.used(INFLATE)[0]) == (count, count)
        client.accepted(SET_VRING_CALL, word(INFLATE | NO_FILE))
        os.close(ends[0]), os.close(ends[1])


def test_a_queue_without_a_call_is_told_of_nothing(start_by_events):
    """Its driver looks by itself; the channel is for messages, where these are negotiated."""
    client = start_by_events()
    for number in (INFLATE, DEFLATE):
        client.accepted(SET_VRING_CALL, word(number | NO_FILE))
        client.post_pages(number, [FIRST])
        eventually(lambda: client.is_all_used(number), client.why)
    # The first thing that it is told is what comes after that.
    assert (client.backend.ask("target 5"), client.told()) == ("ok", None)


def test_a_client_without_a_channel_is_told_of_nothing(serve_well):
    """Neither of a used buffer, where the queue has no call, nor of a change."""
    client = serve_well()
    client.accepted(SET_PROTOCOL_FEATURES, word(QEMU_PROTOCOL & ~BACKEND_REQ))
    client.begun = True
    client.start_by_events()
    client.accepted(SET_VRING_CALL, word(INFLATE | NO_FILE))
    client.post_pages(INFLATE, [FIRST])
    eventually(lambda: client.is_all_used(INFLATE), client.why)
    assert client.backend.ask("target 5") == "ok"


def test_one_event_for_the_kicks_of_two_queues(start_by_events):
    client = start_by_events()
    event = os.eventfd(0, os.EFD_NONBLOCK)
    for number in (INFLATE, DEFLATE):
        client.accepted(SET_VRING_KICK, word(number), [event])
    os.set_blocking(event, True)
    client.describe(INFLATE, 0, BUFFERS, 4)
    client.publish(INFLATE, 0)
    os.eventfd_write(
        event, 1
    )  # one of the two takes it; the other one finds nothing, and doesn't wait
    assert (client.called(INFLATE), client.used(INFLATE)[0], client.counter("kicks")) == (1, 1, 1)
    # Who has found nothing has its kicks still.
    client.accepted(SET_VRING_ENABLE, struct.pack("<II", INFLATE, 0))
    client.describe(DEFLATE, 0, BUFFERS, 4)
    client.publish(DEFLATE, 0)
    os.eventfd_write(event, 1)
    assert (client.called(DEFLATE), client.used(DEFLATE)[0], client.counter("kicks")) == (1, 1, 2)
    os.close(event)


def test_a_kick_that_another_event_follows(start_by_events):
    client = start_by_events()
    process = client.backend.process.pid
    os.kill(process, signal.SIGSTOP)
    client.post_pages(INFLATE, [FIRST])
    client.send(SET_VRING_KICK, word(INFLATE), [client.kicks[DEFLATE]], flags=1)
    os.kill(process, signal.SIGCONT)
    assert (client.called(INFLATE), client.used(INFLATE)[0], client.holes()) == (1, 1, [FIRST])


def test_a_kick_by_a_message_starts_a_ring_that_was_stopped(start):
    """As a kick by a file does: it is still enabled (vhost-user.rst, "Ring states")."""
    client = start()
    client.post_pages(INFLATE, [FIRST])
    assert (client.told(), client.stop_ring(INFLATE)) == (INFLATE, 1)
    client.tell_place(INFLATE, base=1)
    assert client.post_pages(INFLATE, [FIRST + 1]) == bytes(8)
    eventually(lambda: client.is_all_used(INFLATE), client.why)
    assert (client.told(), client.holes()) == (INFLATE, [FIRST, FIRST + 1])


def test_a_kick_as_its_ring_is_disabled(start_by_events):
    client = start_by_events()
    process = client.backend.process.pid
    os.kill(process, signal.SIGSTOP)
    client.post_pages(INFLATE, [FIRST])
    client.send(SET_VRING_ENABLE, struct.pack("<II", INFLATE, 0), flags=1)
    os.kill(process, signal.SIGCONT)
    assert (client.counter("status"), client.used(INFLATE)[0]) == (15, 0)
    client.accepted(SET_VRING_ENABLE, struct.pack("<II", INFLATE, 1))
    assert (client.called(INFLATE), client.used(INFLATE)[0]) == (1, 1)


def test_a_channel_that_nobody_reads(start_by_events):
    client = start_by_events("--lines", "1000")
    for target in range(3000):
        assert client.backend.ask(f"target {target}") == "ok"
    assert client.backend.ask("target 0") == "ok"
    while select.select([client.own], [], [], 0)[0]:
        client.told()
    with open(client.backend.log, encoding="latin-1") as log:
        assert list(log) == ["the client can't be told of a change\n"] * 100
    os.truncate(client.backend.log, 0)


def test_a_driver_that_is_off_its_target_is_reminded(start):
    """Though nothing happens meanwhile."""
    client = start()
    assert client.backend.ask("target 5") == "ok"
    assert [client.told() for _ in range(3)] == 3 * [None]
