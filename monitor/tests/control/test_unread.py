"""What is left unread at a control socket: answers, by a client that then reads them, again and
again, and what a client sends beyond the longest line."""

import json
import time

from hosts import Raw, say
from waiting import eventually

# Bytes of answers: more than a socket has room for, and no more than that and what the host keeps
# for a client.
BYTES = 320 << 10


def test_what_was_left_unread_is_read_in_order(host):
    client = Raw(host.control)
    client.socket.sendall(say(request="status") + b"\n")
    count = BYTES // len(client.lines.readline())
    for turn in range(3):
        before = host.status()["control"]["requests"]
        client.socket.sendall(
            b"".join(say(request="status", id=turn * count + it) + b"\n" for it in range(count))
        )
        eventually(lambda: host.status()["control"]["requests"] >= before + count)
        assert [json.loads(client.lines.readline())["id"] for _ in range(count)] == [
            *range(turn * count, (turn + 1) * count)
        ]
    assert host.status()["control"]["dropped"] == 0
    client.close()


def test_a_line_that_is_too_long_by_its_second_part(host):
    """Its answer may be lost, as bytes are left that nobody reads."""
    client = Raw(host.control)
    client.socket.sendall(b"x")
    time.sleep(0.3)
    client.socket.sendall(b"x" * 4096)
    eventually(lambda: host.status()["control"]["refused"] == 1)
    eventually(lambda: host.status()["control"]["clients"] == 1)
    client.close()
