"""`bigvasta serve`: what it answers to whom, beside clients that are slow or hostile; and what its
page is made of, by values worked out by hand."""

import os
import socket

import pytest
from bigvasta.addresses import LOCAL, parse_address
from bigvasta.cli import parser
from bigvasta.hour import EVERY, Hour
from bigvasta.page import row, shown
from bigvasta.serving import MOST_CLIENTS, MOST_REQUEST, is_loopback, listener_at
from hosts import values
from installed import bigvasta
from made_status import guest, status
from served import facts, free_port, get, said, serving as served
from waiting import PATIENCE, eventually

MIB = 1 << 20


def head_of(answer):
    """Returns the status of an answer, its headers by their names, and its body."""
    head, _, body = answer.partition(b"\r\n\r\n")
    first, *lines = head.decode().split("\r\n")
    return int(first.split()[1]), dict(it.split(": ", 1) for it in lines), body


@pytest.fixture
def port(host):
    """The port at which a host is served."""
    with served(host.control) as (its, _):
        yield its


# A request, and the status of its answer.
REQUESTS = (
    (b"GET / HTTP/1.1\r\n\r\n", 200),
    (b"GET /status HTTP/1.0\r\nhost:  localhost:9750\r\n\r\n", 200),
    (b"GET /status HTTP/1.1\r\nHost: 127.0.0.1\r\n\r\n", 200),
    (b"GET /status HTTP/1.1\r\nHost: :9750\r\n\r\n", 200),
    (b"GET /status HTTP/1.1\r\nHost: [::1]:9750\r\n\r\n", 200),
    (b"GET /status HTTP/1.1\r\nHost: stranger.example:9750\r\n\r\n", 403),
    (b"GET / HTTP/1.1\r\nHost: localhost.example\r\n\r\n", 403),
    (b"GET /metrics HTTP/1.1\r\nHost: localhost\r\nHost: x\r\n\r\n", 403),
    (b"GET /status?x=1 HTTP/1.1\r\n\r\n", 200),
    (b"HEAD /status HTTP/1.1\r\n\r\n", 200),
    (b"GET /metrics HTTP/1.1\r\n\r\n", 200),
    (b"GET /favicon.ico HTTP/1.1\r\n\r\n", 404),
    (b"GET /../etc/passwd HTTP/1.1\r\n\r\n", 404),
    (b"POST /status HTTP/1.1\r\nContent-Length: 1\r\n\r\nx", 405),
    (b"DELETE /none HTTP/1.1\r\n\r\n", 405),
    (b"GET /status\r\n\r\n", 400),
    (b"GET /status HTTP/2\r\n\r\n", 400),
    (b"\xff\x00\r\n\r\n", 400),
    (b"GET / HTTP/1.1\r\nX: " + b"x" * MOST_REQUEST + b"\r\n\r\n", 431),
    (b"x" * 2 * MOST_REQUEST, 431),
)


def test_each_answer_has_its_status(port):
    pytest.importorskip("prometheus_client")
    for request, wanted in REQUESTS:
        code, headers, body = head_of(said(port, request))
        assert (code, headers["Allow"]) == (wanted, "GET, HEAD"), (request, headers)
        assert (
            body == b""
            if request.startswith(b"HEAD")
            else len(body) == int(headers["Content-Length"])
        ), request
        assert "default-src 'none'" in headers["Content-Security-Policy"]


def test_a_port_is_served_again_at_once():
    """Although a connection that the server ended is remembered there."""
    text = f"localhost:{free_port()}"
    with listener_at(text) as first:
        first.listen()
        with socket.create_connection(first.getsockname()[:2], PATIENCE) as client:
            first.accept()[0].close()
            assert client.recv(1) == b""
    listener_at(text).close()


def test_a_host_that_does_not_answer(folder):
    """The page is there and says so; the metrics have it as a number."""
    with served(f"{folder}/none") as (port, _):
        code, answer = facts(port)
        assert (code, answer["ok"]) == (503, False)
        assert answer["error"]["text"] == (
            f"no host answers at {folder}/none: is bigvasta-host running? (No such file or "
            "directory)"
        )
        assert get(port, "/").startswith("<!doctype html>")
        pytest.importorskip("prometheus_client")
        assert values(get(port, "/metrics")) == {"bigvasta_up": 0}


def test_a_host_that_comes_and_goes(host, folder):
    with served(host.control) as (port, _):
        assert facts(port)[0] == 200
        assert host.end() == 0
        eventually(lambda: facts(port)[0] == 503)


def test_it_is_for_this_machine_alone(host):
    """By default, and where no host is named: at 127.0.0.1, and at no other address that this
    machine has."""
    assert parse_address(parser().parse_args(["serve"]).listen) == (LOCAL, 9750)
    with served(host.control) as (port, _), pytest.raises(ConnectionRefusedError):
        socket.create_connection(("127.0.0.2", port), PATIENCE)


def test_which_addresses_are_of_this_machine_alone():
    """A stranger's name isn't served there, also where IPv4 is written as IPv6."""
    own = ("127.0.0.1", "127.9.9.9", "::1", "::ffff:127.0.0.1")
    others = ("0.0.0.0", "::", "192.0.2.1", "::ffff:192.0.2.1", "2001:db8::1")
    assert [is_loopback(it) for it in own + others] == 4 * [True] + 5 * [False]


def test_a_port_that_somebody_has(host, port):
    ran = bigvasta(host.control, "serve", "--listen", f"localhost:{port}")
    assert (ran.returncode, ran.stderr) == (
        3,
        f"bigvasta: --listen: localhost:{port}: Address already in use\n",
    )


def test_as_many_slow_clients_as_it_has_room_for(host):
    """They say a part of a request. The next one is served, in place of the first of them alone,
    and they cost no threads."""
    with served(host.control) as (port, process):
        slow = [
            socket.create_connection(("127.0.0.1", port), PATIENCE) for _ in range(MOST_CLIENTS)
        ]
        for it in slow:
            it.sendall(b"GET /status HTTP/1.1\r\n")
        assert facts(port)[0] == 200
        assert not is_open(slow[0])
        slow[-1].sendall(b"\r\n")
        assert slow[-1].recv(12) == b"HTTP/1.1 200"
        assert len(os.listdir(f"/proc/{process.pid}/task")) <= 3
        for it in slow:
            it.close()


def is_open(client):
    """Returns whether a server hasn't ended the connection within the client's time."""
    try:
        return client.recv(1) != b""
    except TimeoutError:
        return True
    except OSError:
        return False


# A server that gives a client half a second.
QUICK = "import sys; from bigvasta import cli, serving; serving.LIMIT = 0.5; cli.main(sys.argv[1:])"


def test_a_client_has_its_time(folder):
    """One that sends byte by byte, each of them in time."""
    with served(f"{folder}/none", start=("-c", QUICK)) as (port, _):
        with socket.create_connection((LOCAL, port), 0.05) as client:
            client.sendall(b"GET / HTTP/1.1\r\nX: ")
            eventually(lambda: not is_open(client) or client.sendall(b"x"))


# A guest of 200 MiB: of 100 that it holds it could spare 30, as 20 of its 50 are in its balloon; 40
# are lent beyond those, and its target of 50 leaves it three quarters.
HALF = guest("a", memory=200, held=100, spare=50, ballooned=20, loan=140, target=50)


def test_bars_worked_out_by_hand():
    its = row(HALF, 400 * MIB)
    assert its["bar"] == {"parts": (0.35, 0.15, 0.2), "mark": 0.75}
    assert (its["width"], its["numbers"]) == (0.5, ["100", "140", "50", "50"])
    assert row(guest("b", memory=0, state="absent"), 400 * MIB) == {
        "name": "b",
        "numbers": ["0"] * 4,
        "width": 0,
        "bar": None,
        "wait": {"text": "absent", "kind": "plain"},
    }


def test_what_is_shown_of_a_host():
    """Of 400 MiB that two guests were promised, of which 100 are held and 160 lent, on 320, which
    may become 640."""
    guests = [guest("b", memory=200, pressed=True), HALF]
    sizes = {"budget": 320, "held": 100, "lent": 160, "missing": 7}
    its = shown(status(guests, **sizes, pressed=1, most_budget=640 * MIB), {})
    assert its["bar"] == {"parts": (0.25, 0, 0.15), "mark": 0.8}
    assert [it["name"] for it in its["guests"]] == ["a", "b"]
    assert [it["wait"] for it in its["guests"]] == [
        {"text": "", "kind": "plain"},
        {"text": "pressed", "kind": "warning"},
    ]
    head = "budget 320 of 640  held 100  lent 160  promised 400  missing 7.0 MiB  tier cache"
    assert its["lines"] == [
        {"text": head, "kind": "warning"},
        {"text": "2 guests, 1 pressed, by name", "kind": "plain"},
    ]


def test_names_are_escaped_as_in_a_terminal():
    assert row(guest("<b>\x1b\u202e", memory=1), MIB)["name"] == "<b>\\x1b\\u202e"


def test_the_last_hour():
    """Half an hour ago it held 120 of 480 MiB, then it was away, and now it holds 240 and lacks
    12."""
    hour = Hour()
    hour.note(1000, status([], budget=480, held=120, lent=360))
    hour.note(1900, None)
    hour.note(2800, status([], budget=480, held=240, lent=480, missing=12))
    assert hour.lines(2800) == {
        "most": "480 MiB",
        "points": {
            "budget": [[0.5, 1.0], None, [1.0, 1.0]],
            "held": [[0.5, 0.25], None, [1.0, 0.5]],
            "lent": [[0.5, 0.75], None, [1.0, 1.0]],
            "missing": [[0.5, 0.0], None, [1.0, 0.025]],
        },
    }


def test_no_more_than_the_last_hour_is_kept():
    hour = Hour()
    for number in range(1000):
        hour.note(number * EVERY, status([], held=number))
    points = hour.lines(999 * EVERY)["points"]["held"]
    assert (points[0], points[-1], len(points)) == ([0.0, 0.6396], [1.0, 1.0], 361)
    assert Hour().lines(0)["points"]["held"] == []
