"""Clients of a host that are malformed: each does something that ends it, or hangs."""

import os
import struct
import time

import vhost_client
from host_checks import demand, eventually
from vhost_client import Client


def break_a_rule(client, chance):
    """Posts a chain that breaks a rule."""
    client.start()
    if chance.random() < 0.5:
        client.describe(
            vhost_client.INFLATE,
            0,
            vhost_client.BUFFERS,
            chance.choice((5, 1 << 20)),
            chance.choice((0, 2, 4)),
        )
        client.publish(vhost_client.INFLATE, 0)
    else:
        client.publish(vhost_client.INFLATE, 0, vhost_client.SIZE + 1)
    client.kick(vhost_client.INFLATE)


def send_no_message(client, chance):
    """Sends a head that begins no message."""
    client.socket.sendall(struct.pack("<III", chance.getrandbits(32), 1, 1 << 20))


def cut_memory_off(client, _):
    """Cuts its memory's file off after what it told of it."""
    client.start()
    os.ftruncate(client.files[0], 0)
    client.send(vhost_client.VRING_KICK, struct.pack("<II", vhost_client.INFLATE, 0), flags=1)


def claim_much(client, _):
    """Hands over a file as memory for which there is no room."""
    table = struct.pack("<II", 1, 0) + struct.pack("<QQQQ", 0, 1 << 30, 0, 0)
    client.negotiate()
    os.ftruncate(client.files[0], 1 << 30)
    client.send(vhost_client.SET_MEM_TABLE, table, client.files[:1], flags=1)


def read_nothing(client, _):
    """Asks for answers, and doesn't read them."""
    client.socket.setblocking(False)
    head = struct.pack("<III", vhost_client.GET_FEATURES, 1, 0)
    try:
        while client.socket.send(head * 64):
            pass
    except BlockingIOError:
        time.sleep(0.2)
    try:
        client.socket.send(head * 64)
    except OSError:
        pass


# What ends a client, and how.
ENDED = (break_a_rule, send_no_message, cut_memory_off, claim_much, read_nothing)


def end_one(town, client, how, chance, gone):
    """Lets a client do what ends it, and looks after the others."""
    try:
        how(client, chance)
    except (OSError, AssertionError):
        pass  # the host may have closed the socket meanwhile
    eventually(
        lambda: town.host.counters()["gone"] > gone,
        lambda: f"{how.__name__}: the client is still there",
        5,
    )
    client.leave()
    serves = lambda seen: all(
        seen[it.name]["ready"] and seen[it.name]["answers"] for it in town.members
    )
    eventually(
        lambda: serves(town.host.guests()), lambda: f"{how.__name__}: {town.host.guests()}", 5
    )


def hang_one(town, path):
    """A client that sends half a message and hangs, with memory of its own, holds nobody up."""
    client = Client(path, town.host.why)
    client.start()
    client.socket.sendall(struct.pack("<II", vhost_client.GET_FEATURES, 1))
    seen, looks = town.host.guests(), town.host.counters()["looks"]
    town.members[0].fill("work", 60)
    town.members[0].drop("work")
    asked = lambda now: all(
        now[it.name]["statistics"] > seen[it.name]["statistics"] for it in town.members
    )
    eventually(lambda: asked(town.host.guests()), "a guest isn't asked any longer", 5)
    eventually(lambda: town.host.counters()["looks"] > looks + 4, "the host has stopped to look", 5)
    now = town.host.guests()
    demand(
        not now["trash"]["answers"] and now["trash"]["spare"] == 0,
        f"a client that hangs can spare: {now['trash']}",
    )
    client.leave()
    eventually(
        lambda: not town.host.guests()["trash"]["here"], "a client that has gone is still there", 5
    )
