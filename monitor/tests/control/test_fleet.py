"""`bigvasta fleet`: a line a host, by its socket or the URL of its server; hosts that don't answer;
and which has room for another guest, by values worked out by hand."""

import contextlib
import json
import os
import socket
import subprocess
import sys
import threading

import linux_kit
import pytest
from bigvasta.cli import main
from bigvasta.commands import fleet
from bigvasta.connection import MOST_ANSWER
from fakes import Fake, drip
from made_status import guest, status
from served import serving
from waiting import PATIENCE

MIB = 1 << 20

# Of 480 MiB: two guests of 256 can't spare 256 of theirs. Of 1024: a guest spares all. Of 300: they
# are short of 20.
HOSTS = {
    "a": status(
        [guest("x", memory=256, spare=128), guest("y", memory=256, spare=128, pressed=True)],
        budget=480,
        held=400,
        lent=420,
        waiting=1,
    ),
    "b": status([guest("z", memory=512, spare=512)], budget=1024, held=5, lent=512),
    "c": status([guest("w", memory=320)], budget=300, held=320, lent=320, missing=20),
}


@pytest.fixture
def hosts(tmp_path_factory):
    """The sockets of these hosts, by their names."""
    fakes = {
        name: Fake(tmp_path_factory.mktemp(name), lambda asked, its=its: (its,))
        for name, its in HOSTS.items()
    }
    yield {name: it.path for name, it in fakes.items()}
    for it in fakes.values():
        it.close()


@pytest.fixture(autouse=True)
def patience(monkeypatch):
    """A busy machine has longer."""
    monkeypatch.setattr(fleet, "PATIENCE", PATIENCE)


def cells(capsys, *words):
    """Returns the exit status, and the columns of each line."""
    code = main(["fleet", *words])
    return code, [it.split() for it in capsys.readouterr().out.splitlines()]


def test_a_line_a_host(capsys, hosts):
    code, lines = cells(capsys, hosts["b"], hosts["a"], hosts["c"])
    assert (code, lines) == (
        0,
        [
            "host budget held lent promise short waiting pressed".split(),
            [hosts["b"], "1024", "5.0", "512", "0.50", "0", "0"],
            [hosts["a"], "480", "400", "420", "1.07", "0", "1", "y"],
            [hosts["c"], "300", "320", "320", "1.07", "20", "0"],
            "3 hosts, 0 away, 1 short".split(),
        ],
    )


# A size, what each host lacks for a guest of it, and the first that has room.
FITS = (
    ("224M", {"a": "", "b": "", "c": "244"}, "a"),
    ("228M", {"a": "4.0", "b": "", "c": "248"}, "b"),
    ("1G", {"a": "800", "b": "", "c": "1044"}, "b"),
    ("1028M", {"a": "804", "b": "4.0", "c": "1048"}, "no host"),
)


@pytest.mark.parametrize("size, lacks, first", FITS)
def test_which_has_room(capsys, hosts, shared, size, lacks, first):
    words = (*hosts.values(), "--fits", size, "--library", shared)
    code, lines = cells(capsys, *words)
    rooms = {it[0]: it[7:] for it in lines[1:4]}
    wanted = {it: ["lacks", by] if by else ["fits"] for it, by in lacks.items()}
    assert (
        code == 0 and {it: rooms[path][: len(wanted[it])] for it, path in hosts.items()} == wanted
    )
    assert lines[0][7] == "room"
    assert " ".join(lines[-1]).endswith(f" MiB has room on {hosts.get(first, first)}")
    main(["fleet", *words, "--json"])
    found = [json.loads(it) for it in capsys.readouterr().out.splitlines()]
    assert [it["lacks"] for it in found] == [
        int(float(it or 0)) * MIB for it in lacks.values()
    ] and [it["at"] for it in found] == [*hosts.values()]


def test_a_host_that_has_no_place(capsys, folder, shared):
    """Guests are there, none of which has any memory: as many as it may have, or as an older host
    has, which doesn't say how many."""
    its = status([guest(f"g{it}", state="absent") for it in range(64)], budget=100)
    host = Fake(folder, lambda asked: (its,))
    words = (host.path, "--fits", "4K", "--library", shared)
    assert cells(capsys, *words)[1][1][-1] == "full"
    assert cells(capsys, *words)[1][-1][-2:] == ["no", "host"]
    its["host"]["most_guests"] = 65
    assert cells(capsys, *words)[1][1][-1] == "fits"
    its["guests"].pop()
    assert cells(capsys, *words)[1][1][-1] == "fits"
    its["host"]["most_guests"] = 63
    assert cells(capsys, *words)[1][1][-1] == "full"
    del its["host"]["most_guests"]
    assert cells(capsys, *words)[1][1][-1] == "fits"
    host.close()


def test_by_the_url_of_a_server(capsys, hosts, folder):
    with serving(hosts["a"]) as (port, _), serving(f"{folder}/none") as (other, _):
        urls = [f"http://localhost:{port}", f"http://127.0.0.1:{port}/", f"http://:{other}"]
        code, lines = cells(capsys, *urls)
    assert code == 5 and [it[1:] for it in lines[1:3]] == ["480 400 420 1.07 0 1 y".split()] * 2
    assert " ".join(lines[3]).startswith(f"{urls[2]} no host answers at {folder}/none: is ")
    assert " ".join(lines[-1]) == "3 hosts, 1 away, 0 short"


def test_all_are_asked_beside_each_other(capsys, tmp_path_factory):
    """Each answers once all have been asked."""
    met = threading.Barrier(3)

    def answer(asked):
        met.wait(PATIENCE)
        return (HOSTS["b"],)

    fakes = [Fake(tmp_path_factory.mktemp("host"), answer) for _ in range(3)]
    assert cells(capsys, *(it.path for it in fakes))[0] == 0
    for it in fakes:
        it.close()


# What a host says in place of an answer, and what is said of it.
AWAY = {
    "mute": (lambda _: (), "the host doesn't answer in time"),
    "slow": (lambda _: drip(b" " * 10000, 0.1), "the host doesn't answer in time"),
    "wrong": (lambda _: (b"\x1b]0;x\x07\n",), "the host's answer is no JSON"),
    "empty": (
        lambda _: ({"version": 1, "ok": True},),
        "the host's answer has no host, or a wrong one",
    ),
}


@pytest.mark.parametrize("says, said", AWAY.values(), ids=AWAY)
def test_a_host_that_does_not_answer(capsys, monkeypatch, hosts, folder, says, said):
    """Its line says why, in the time of one; the others have theirs."""
    monkeypatch.setattr(fleet, "PATIENCE", 5)
    away = Fake(folder, says)
    code, lines = cells(capsys, hosts["c"], away.path, hosts["b"])
    assert (code, [it[:2] for it in lines[1::2]]) == (
        5,
        [[hosts["c"], "300"], [hosts["b"], "1024"]],
    )
    assert " ".join(lines[2]).endswith(said)
    assert main(["fleet", away.path, f"{folder}/none"]) == 3
    capsys.readouterr()
    main(["fleet", f"{folder}/none", "--json"])
    answer = json.loads(capsys.readouterr().out)
    assert (answer["at"], answer["ok"]) == (f"{folder}/none", False)
    away.close()


# What a server says that is none of bigvasta's, and what is said of it.
STRANGERS = (
    (b"", "the host went away amid an answer"),
    (b"SSH-2.0-x\r\n", "the host went away amid an answer"),
    (b"HTTP/1.1 200 OK\r\n\r\n<html>\n", "the host's answer is no JSON"),
    (b"HTTP/1.1 200 OK\r\n\r\n{}\n", "the host doesn't speak version 1 of the protocol"),
    (b"x" * (MOST_ANSWER + (2 << 20)), "the host's answer is too long"),
)


def answer_one(server, says):
    """Says these bytes to a client."""
    client, _ = server.accept()
    with client, contextlib.suppress(OSError):
        client.recv(1 << 16)
        client.sendall(says)


@pytest.mark.parametrize("says, said", STRANGERS, ids=("none", "ssh", "page", "object", "long"))
def test_a_server_of_another_kind(capsys, says, said):
    with socket.create_server(("127.0.0.1", 0)) as server:
        threading.Thread(target=answer_one, args=(server, says), daemon=True).start()
        code, lines = cells(capsys, f"http://127.0.0.1:{server.getsockname()[1]}")
    assert code == 3 and " ".join(lines[1]).endswith(said), lines


def test_nobody_waits_for_one_that_is_stuck(capsys, monkeypatch, hosts):
    """As where a name server doesn't answer, for which a socket has no limit."""
    connect, late = fleet.connect, threading.Event()

    def stuck(place, limit):
        if place == "stuck":
            late.wait(60)
        return connect(hosts["b"], limit)

    monkeypatch.setattr(fleet, "PATIENCE", 5)
    monkeypatch.setattr(fleet, "connect", stuck)
    code, lines = cells(capsys, "stuck", hosts["b"])
    late.set()
    assert (code, " ".join(lines[1])) == (5, "stuck the host doesn't answer in time")
    assert lines[2][:2] == [hosts["b"], "1024"]


# A program that asks a host, which nothing ends.
STUCK = """
import sys, threading
from bigvasta.cli import main
from bigvasta.commands import fleet
fleet.PATIENCE, fleet.connect = 0.1, lambda *_: threading.Event().wait()
sys.exit(main(["fleet", "stuck"]))
"""


def test_the_program_ends_while_one_is_stuck():
    client = os.path.join(linux_kit.ROOT, "client")
    words, environment = [sys.executable, "-c", STUCK], {**os.environ, "PYTHONPATH": client}
    ended = subprocess.run(words, env=environment, capture_output=True, timeout=PATIENCE)
    assert ended.returncode == 3, ended.stderr


def test_more_hosts_than_files_are_usual(folder):
    """A host that takes no client holds each file until the end: 40, where 32 may be open."""
    client = os.path.join(linux_kit.ROOT, "client")
    places = [str(folder) + "/" * number + "socket" for number in range(1, 41)]
    with socket.socket(socket.AF_UNIX) as listener:
        listener.bind(f"{folder}/socket")
        listener.listen(len(places))
        words = ["/bin/sh", "-c", 'ulimit -S -n 32; exec "$0" -B -m bigvasta fleet "$@"']
        ran = subprocess.run(
            [*words, sys.executable, *places],
            env={**os.environ, "PYTHONPATH": client},
            capture_output=True,
            text=True,
            timeout=PATIENCE,
        )
    lines = ran.stdout.splitlines()
    assert (ran.returncode, ran.stderr, lines[-1]) == (3, "", "40 hosts, 40 away, 0 short")
    others = [it for it in lines[1:-1] if not it.endswith("  the host doesn't answer in time")]
    assert (len(lines), others) == (42, [])


def test_names_are_escaped(capsys, folder):
    its = status([guest("\x1b[2J", memory=1, pressed=True)], budget=1)
    host = Fake(folder, lambda asked: (its,))
    assert cells(capsys, host.path)[1][1][-1] == "\\x1b[2J"
    host.close()


# Words that are refused.
REFUSED = (
    (["http://x"], "http://x: 'x' is no HOST:PORT, such as localhost:9750"),
    (["http://localhost:0"], "http://localhost:0: 'localhost:0' is no HOST:PORT, such as"),
    (["x", "--fits", "4"], "--fits: '4' is no size: a number with K, M, G or T"),
    (["x", "--fits", "0"], "--fits: '0' isn't from 4K on"),
    (["x", "--fits", "4G", "--library", "/none"], "/none is no library of vb.h"),
)


@pytest.mark.parametrize("words, said", REFUSED)
def test_refusals(capsys, words, said):
    assert main(["fleet", *words]) == 2
    assert capsys.readouterr().err.startswith(f"bigvasta: {said}")
