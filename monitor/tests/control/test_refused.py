"""A guest that isn't admitted is seen until it is: why, by how much, how often. And a guest at work
isn't removed by mistake."""

import pytest
from bigvasta.connection import Connection
from bigvasta.picture import Shown, picture
from bigvasta.statuses import Refused
from hosts import Answering
from installed import bigvasta
from vhost_client import Client
from waiting import eventually

MIB, PAGE = 1 << 20, 4096

# Bytes of the memory of a client.
GUEST = 128 * PAGE


def refusal(host):
    """Returns why the last client of a guest wasn't admitted, and how many weren't."""
    its = host.guest("a")
    return its["refused"], its["counters"]["refusals"]


def turned_away(host, count):
    """Has a client come that isn't admitted."""
    guest = Answering.__new__(Answering)
    try:
        Answering.__init__(guest, host, "a")
    except (AssertionError, OSError, TypeError):
        pass
    eventually(lambda: refusal(host)[1] == count, lambda: host.said()[-4:])
    eventually(lambda: host.guest("a")["state"] == "absent")


@pytest.mark.parametrize("strict", (True, False))
def test_who_finds_no_room_is_seen_until_it_comes(host, strict):
    host.ask("floor", bytes=0)
    host.ask("add", name="a", strict=strict)
    host.ask("budget", bytes=GUEST - 22 * PAGE)
    assert refusal(host) == (None, 0)
    with Connection(host.control) as it:
        events = it.follow()
        turned_away(host, 1)
        event = next(one for one in events if one["event"] == "refused")
    wanted = {"for": "room", "bytes": 22 * PAGE}
    assert {name: event[name] for name in ("guest", "waits_for", *wanted)} == {
        "guest": "a",
        "waits_for": "room",
        **wanted,
    }
    assert refusal(host) == (wanted, 1)
    turned_away(host, 2)
    status = bigvasta(host.control, "status").stdout
    assert status.splitlines()[2].endswith("refused: 0.1 MiB short"), status
    view = picture(host.ask("status"), 100, 20, Shown())
    assert any("refused: 0.1 MiB short" in it.text for it in view)
    assert "refused a: no room for 512K: 88K are missing" in host.said()
    # Nor is a client admitted that has handed over no memory yet.
    client = Client(f"{host.folder}/a")
    client.negotiate()
    eventually(lambda: host.guest("a")["process"])
    assert refusal(host) == (wanted, 2)
    client.leave()
    eventually(lambda: host.guest("a")["state"] == "absent")
    # It comes in: nothing is wrong with it any longer, and the count stays.
    host.ask("budget", bytes=GUEST)
    guest = Answering(host, "a")
    eventually(lambda: host.guest("a")["state"] == "ready")
    assert refusal(host) == (None, 2)
    assert "refused" not in bigvasta(host.control, "status").stdout
    guest.leave()


def test_who_brings_too_much_is_seen(host):
    host.ask("add", name="a", memory=GUEST - PAGE)
    turned_away(host, 1)
    assert refusal(host) == ({"for": "memory", "bytes": PAGE}, 1)
    lines = bigvasta(host.control, "guest", "a").stdout
    assert "refused: 0.0 MiB above its memory=" in lines
    assert "refused a: its memory has 512K, and may have 508K (memory=)" in host.said()


def test_a_guest_at_work_is_removed_by_force_alone(host, arrive):
    guest = arrive("a")
    eventually(lambda: host.guest("a")["state"] == "ready")
    words = "a is at work: --force .*lives on until its VMM closes it"
    for fields in ({}, {"force": False}):
        with pytest.raises(Refused, match=words) as found:
            host.ask("remove", name="a", **fields)
        assert (found.value.code, found.value.field) == ("at-work", "name")
    ran = bigvasta(host.control, "remove", "a")
    assert ran.returncode == 1 and "--force" in ran.stderr
    assert host.guest("a")["state"] == "ready" and host.guest("a")["answers"]
    ran = bigvasta(host.control, "remove", "a", "--force")
    assert ran.returncode == 0 and "its memory lives on until its VMM closes it" in ran.stdout
    eventually(lambda: not host.ask("status")["guests"])
    guest.stop()
    host.ask("add", name="b")
    answer = host.ask("remove", name="b")
    assert answer["lives_on"] is False
