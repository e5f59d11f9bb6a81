"""A guest's backend is started as QEMU's conventions for vhost-user backends say: by a path, by a
socket, and asked what it can."""

import json
import os
import re
import signal
import socket
import subprocess
import time

import linux_kit
import pytest
from linux_guest import Lines
from linux_kit import ROOT
from vhost_client import Client
from waiting import PATIENCE, eventually, patience_from_now


@pytest.fixture(scope="session")
def backend():
    """The backend's program, with the compiler's checks."""
    return linux_kit.built("checked/vhost_user_balloon")


class Running:
    """A backend that runs without a control pipe, as a management program starts it."""

    def __init__(self, program, *words, files=()):
        self.process = subprocess.Popen(
            [program, *words],
            stdin=subprocess.DEVNULL,
            stdout=subprocess.PIPE,
            stderr=subprocess.PIPE,
            pass_fds=files,
        )
        self.first = Lines(self.process.stdout, "the backend").next(patience_from_now())

    def end(self):
        """Ends it by SIGTERM; returns its status."""
        self.process.send_signal(signal.SIGTERM)
        _, said = self.process.communicate(timeout=PATIENCE)
        return self.process.returncode, said.decode()


def serve(client):
    """Has a client's queues started, and inflates a page."""
    client.start()
    client.post_pages(0, [0x180])
    eventually(lambda: client.used(0)[0] == 1)
    assert client.holes() == [0x180]


@pytest.mark.parametrize(
    "words",
    (
        ["--socket-path", "{path}"],
        ["--socket-path={path}"],
        ["--strict", "--socket-path={path}", "--lines", "2147483647"],
    ),
)
def test_by_a_path(backend, tmp_path_factory, words):
    path = f"{tmp_path_factory.mktemp('b')}/socket"
    it = Running(backend, *(word.format(path=path) for word in words))
    assert it.first == "listening"
    serve(Client(path))
    assert it.end() == (0, "")
    assert not os.path.exists(path)


@pytest.mark.parametrize("option", ("--fd {}", "--fd={}"))
def test_by_a_socket_that_listens(backend, tmp_path_factory, option):
    path = f"{tmp_path_factory.mktemp('b')}/socket"
    with socket.socket(socket.AF_UNIX) as listener:
        listener.bind(path)
        listener.listen()
        it = Running(backend, *option.format(listener.fileno()).split(), files=[listener.fileno()])
    serve(Client(path))
    assert it.end() == (0, "")
    assert os.path.exists(path), "the maker of the socket removes it"


# How often is looked, and how many seconds apart, whether a process sleeps: one that never does is
# ready to run each time, however busy the machine is.
LOOKS, APART = 20, 0.02


def state_of(process):
    """Returns the letter of a process's state, a moment later (proc(5))."""
    time.sleep(APART)
    with open(f"/proc/{process}/stat", encoding="ascii") as its:
        return its.read().rsplit(")", 1)[1].split()[0]


def test_who_has_no_control_pipe_sleeps(backend, tmp_path):
    """Its end isn't looked at again."""
    it = Running(backend, f"--socket-path={tmp_path}/socket")
    eventually(
        lambda: all(state_of(it.process.pid) == "S" for _ in range(LOOKS)), "it never sleeps"
    )
    assert it.end() == (0, "")


class Connected(Client):
    """A client whose socket is connected already."""

    def __init__(self, end):
        self.end = end
        super().__init__("")

    def connect(self):
        self.socket, self.begun = self.end, False
        self.own, self.theirs = socket.socketpair()


def test_by_a_client_s_socket(backend):
    ours, theirs = socket.socketpair()
    it = Running(backend, f"--fd={theirs.fileno()}", files=[theirs.fileno()])
    theirs.close()
    serve(Connected(ours))
    assert it.end() == (0, "")


def test_what_it_can(backend):
    ran = subprocess.run(
        [backend, "--nonsense", "--print-capabilities", "--fd=x"],
        capture_output=True,
        text=True,
        timeout=PATIENCE,
    )
    assert (ran.returncode, json.loads(ran.stdout), ran.stderr) == (0, {"type": "balloon"}, "")


def test_the_description_file():
    with open(f"{ROOT}/packaging/qemu/50-bigvasta-balloon.json", encoding="utf-8") as file:
        its = json.load(file)
    assert (its["type"], its["binary"], set(its)) == (
        "balloon",
        "/usr/bin/vhost_user_balloon",
        {"description", "type", "binary"},
    )


WRONG = (
    ["--fd"],
    ["--fd", "x"],
    ["--fd", "-1"],
    ["--fd=99"],
    ["--fd", "0"],
    ["--fd="],
    ["--socket-path"],
    ["--socket-path", "a", "--fd", "{}"],
    ["--fd", "{}", "--fd", "{}"],
    ["path", "--fd", "{}"],
)


@pytest.mark.parametrize("words", WRONG)
def test_command_lines_that_are_none(backend, words):
    ours, theirs = socket.socketpair()
    with ours, theirs:
        number = theirs.fileno()
        ran = subprocess.run(
            [backend, *(it.format(number) for it in words)],
            capture_output=True,
            text=True,
            timeout=PATIENCE,
            stdin=subprocess.DEVNULL,
            pass_fds=[number],
        )
    assert (ran.returncode, ran.stdout) == (2, "")
    assert "vhost_user_balloon SOCKET | --socket-path SOCKET | --fd FD" in ran.stderr


@pytest.mark.parametrize("kind", (socket.SOCK_DGRAM, socket.SOCK_SEQPACKET))
def test_a_socket_that_is_no_stream(backend, kind):
    ours, theirs = socket.socketpair(socket.AF_UNIX, kind)
    with ours, theirs:
        ran = subprocess.run(
            [backend, f"--fd={theirs.fileno()}"],
            capture_output=True,
            text=True,
            timeout=PATIENCE,
            stdin=subprocess.DEVNULL,
            pass_fds=[theirs.fileno()],
        )
    assert (ran.returncode, ran.stdout) == (2, "")
    assert re.fullmatch(r"--fd: \d+ can't be taken", ran.stderr.splitlines()[0])


# A command line, and what is said of it before the help.
NAMED = (
    (["--nonsense"], "unrecognized option '--nonsense'"),
    (["--fd"], "option '--fd' requires an argument"),
    (["--strict=1"], "option '--strict' doesn't allow an argument"),
    (["--s"], "option '--s' is ambiguous; possibilities: '--state' '--strict' '--socket-path'"),
    (["--fd", "x"], "--fd: x can't be taken"),
    (["--lines", "-1"], "--lines: -1 can't be taken"),
    (["--lines", "2147483648"], "--lines: 2147483648 can't be taken"),
    (["--layout", "0"], "--layout: 0 can't be taken"),
    (["--layout", "4294967296"], "--layout: 4294967296 can't be taken"),
    (["--features", "g"], "--features: g can't be taken"),
    (["a", "b"], ""),
    ([], ""),
)


@pytest.mark.parametrize("words, said", NAMED)
def test_what_is_wrong_is_named(backend, words, said):
    ran = subprocess.run(
        [backend, *words],
        capture_output=True,
        text=True,
        timeout=PATIENCE,
        stdin=subprocess.DEVNULL,
        env={"LC_ALL": "C"},
    )
    first, _, rest = ran.stderr.partition("vhost_user_balloon SOCKET |")
    assert (ran.returncode, first.removeprefix(f"{backend}: ").rstrip("\n")) == (2, said) and rest
