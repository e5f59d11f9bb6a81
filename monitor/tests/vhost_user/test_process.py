"""Tests of a backend as a process: its standard files, the signals that end it, the files that it
may open, and the one that keeps its state."""

import os
import resource
import signal
import socket
import stat
import struct
import subprocess
import tempfile
import time

import pytest
import linux_guest
import linux_kit
from vhost_client import (
    ADD_MEM_REG,
    FEATURES,
    GET_FEATURES,
    HAS_PROTOCOL,
    INFLATE,
    PAGE,
    PAGES_OF_REGION,
    QUEUES,
    SET_FEATURES,
    SET_MEM_TABLE,
    SET_VRING_CALL,
    SET_VRING_ERR,
    SET_VRING_KICK,
    SIZE,
    STATE_BYTES,
    Client,
)
from vhost_demands import FIRST, demand_served, word
from vhost_logs import log_base, log_file
from vhost_moves import LOAD, PROTOCOL, WELL, ask
from waiting import PATIENCE, patience_from_now


# Memory slots of a client, and of a table (docs/LINUX.md, "The protocol").
SLOTS, TABLE = 32, 8


def state_of(path):
    """Returns the bytes of a file."""
    with open(path, "rb") as file:
        return file.read()


@pytest.fixture
def started_by(program, tmp_path):
    """Returns the process of a backend that has this standard file closed, and a client of it."""
    running = []

    def make(closed):
        path = str(tmp_path / "socket")
        words = ["sh", "-c", f'exec "$0" "$@" {closed}', program, path]
        backend = subprocess.Popen(
            words, stdin=subprocess.PIPE, stdout=subprocess.PIPE, stderr=subprocess.PIPE
        )
        running.append(backend)
        end = patience_from_now()
        while True:  # the socket's name is there before the socket listens
            try:
                return backend, Client(path)
            except (FileNotFoundError, ConnectionRefusedError):
                assert time.monotonic() < end, "the backend doesn't listen"

    yield make
    for it in running:
        it.kill()
        it.communicate()


@pytest.mark.parametrize("number, closed", ((1, ">&-"), (2, "2>&-")))
def test_standard_files_that_are_closed(started_by, number, closed):
    backend, client = started_by(closed)
    client.start_by_events()
    assert os.readlink(f"/proc/{backend.pid}/fd/{number}") == "/dev/null"
    for it in client.files:
        os.lseek(it, 0, os.SEEK_SET)  # where one who writes to it would
    client.publish(INFLATE, SIZE)
    client.kick(INFLATE)
    assert backend.wait(PATIENCE) == 1
    assert [os.fstat(it).st_size for it in client.files] == 2 * [PAGES_OF_REGION * PAGE]
    assert [os.lseek(it, 0, os.SEEK_CUR) for it in client.files] == [0, 0]
    client.leave()


def test_a_standard_input_that_is_closed(program):
    with tempfile.TemporaryDirectory() as folder:
        words = ["sh", "-c", 'exec "$0" "$@" <&-', program, f"{folder}/socket"]
        ran = subprocess.run(words, capture_output=True, text=True, timeout=PATIENCE)
        assert (ran.returncode, ran.stderr) == (
            2,
            f"vhost_user_balloon: {folder}/socket: Operation canceled\n",
        )


@pytest.mark.parametrize("number", (signal.SIGTERM, signal.SIGINT, signal.SIGHUP))
def test_signals_end_it_and_remove_the_socket(serve, program, number):
    with tempfile.TemporaryDirectory() as folder:
        backend = linux_guest.Backend(program, folder, [f"{folder}/socket"])
        backend.process.send_signal(number)
        assert (backend.process.wait(PATIENCE), os.listdir(folder), backend.why()) == (
            0,
            ["backend.log"],
            "",
        )
        backend.process.stdout.close(), backend.process.stdin.close()
    client = serve()
    client.start_by_events()
    client.backend.process.send_signal(number)
    assert client.backend.process.wait(PATIENCE) == 0
    assert (sorted(os.listdir(client.folder.name)), client.close()) == (["backend.log"], (0, ""))


@pytest.mark.parametrize(
    "words, said",
    (
        (["--help"], "vhost_user_balloon SOCKET |"),
        (["--version"], "vhost_user_balloon VERSION\n"),
        (["socket", "--help"], "vhost_user_balloon SOCKET |"),
    ),
)
def test_help_and_version(program, words, said):
    with open(os.path.join(linux_kit.ROOT, "VERSION"), encoding="ascii") as file:
        said = said.replace("VERSION", file.read().strip())
    ran = subprocess.run(
        [program, *words],
        stdin=subprocess.DEVNULL,
        capture_output=True,
        text=True,
        timeout=PATIENCE,
    )
    assert (ran.returncode, ran.stderr, ran.stdout[: len(said)]) == (0, "", said)


def test_no_file_is_left_for_a_state_and_a_client(serve_well):
    client = serve_well()
    state = client.file("state")
    client.restart("--state", state)
    target(client, 5)  # once it waits, all that it opens by itself is open, and its state written
    process = client.backend.process.pid
    soft, hard = resource.prlimit(process, resource.RLIMIT_NOFILE)
    resource.prlimit(process, resource.RLIMIT_NOFILE, (client.open_files(), hard))
    target(client, 6)
    assert client.backend.why() == f"{state} isn't written: Too many open files"
    client.connect()
    assert client.is_at_rest(), "no file is left, and the backend looks again and again"
    assert client.backend.why() == "a client can't be taken: Too many open files"
    resource.prlimit(process, resource.RLIMIT_NOFILE, (soft, hard))
    client.start_by_events()
    demand_served(client, INFLATE, [FIRST])
    os.truncate(client.backend.log, 0)


def test_a_client_that_takes_no_answer_has_gone(serve):
    client = serve()
    client.socket.shutdown(socket.SHUT_RD)
    client.send(GET_FEATURES, flags=1)
    assert client.backend.process.wait(PATIENCE) == 0
    assert client.close() == (0, "")


@pytest.mark.parametrize("limit, is_few", (("-n 20", True), ("-S -n 20", False)))
def test_few_files_are_allowed(program, limit, is_few):
    words = ["sh", "-c", f'ulimit {limit}; exec "$0" "$@"', program, "/nowhere/socket"]
    ran = subprocess.run(
        words, stdin=subprocess.DEVNULL, capture_output=True, text=True, timeout=PATIENCE
    )
    few = " files may be wanted, and 20 may be open (RLIMIT_NOFILE)\n"
    assert (few in ran.stderr) == is_few, ran.stderr


def test_a_client_may_have_all_its_files_where_few_are_allowed_at_first(serve, program, tmp_path):
    """Its memory slots, with a table of others on its way; three events of each queue; its channel,
    its log, and a pipe for the device's state."""
    few = tmp_path / "few"
    few.write_text(f'#!/bin/sh\nulimit -S -n 20\nexec {program} "$@"\n')
    few.chmod(0o755)
    client = serve(built=str(few))
    client.begin(PROTOCOL)
    file, event, log = client.files[0], os.eventfd(0, os.EFD_NONBLOCK), log_file()
    client.accepted(SET_FEATURES, word(FEATURES | HAS_PROTOCOL))
    for it in range(SLOTS):
        body = struct.pack("<5Q", 0, it * PAGE, PAGE, it << 32, 0)
        client.accepted(ADD_MEM_REG, body, [file])
    for number in range(QUEUES):
        for request in (SET_VRING_KICK, SET_VRING_CALL, SET_VRING_ERR):
            client.accepted(request, word(number), [event])
    assert log_base(client, log) == bytes(8)
    theirs, ours = os.pipe()
    assert ask(client, theirs, LOAD) == WELL
    table = b"".join(struct.pack("<4Q", it * PAGE, PAGE, it << 32, 0) for it in range(TABLE))
    client.accepted(SET_MEM_TABLE, struct.pack("<II", TABLE, 0) + table, TABLE * [file])
    assert client.counter("end") == TABLE
    for it in (event, log, ours):
        os.close(it)


def test_no_file_is_left_for_memory(serve):
    client = serve()
    client.negotiate()
    resource.prlimit(
        client.backend.process.pid, resource.RLIMIT_NOFILE, (client.open_files() + 1,) * 2
    )
    with pytest.raises((AssertionError, ConnectionResetError)):
        client.hand_over_memory()
    assert client.close() == (1, "refused: SET_MEM_TABLE has 1 files and more")


def target(client, pages):
    """Sets a target, and waits until what follows is served."""
    assert (
        client.backend.ask(f"target {pages}"),
        client.counter("target"),
        client.counter("target"),
    ) == ("ok", pages, pages)


def test_a_state_that_was_read_is_closed(serve_well):
    client = serve_well()
    state = client.file("state")
    client.restart("--state", state)
    target(client, 5)
    client.restart("--state", state)
    assert client.counter("target") == 5
    files = f"/proc/{client.backend.process.pid}/fd"
    assert state not in [os.readlink(f"{files}/{it}") for it in os.listdir(files)]
    client.connect()


# Bytes of a line at most, with its end (say.c).
MOST_LINE = 512


@pytest.mark.parametrize("length", (MOST_LINE - 30, MOST_LINE, 2000))
def test_a_line_that_is_too_long_is_cut(program, tmp_path, length):
    """It is a whole line still, and says the more of its words the longer it may be."""
    path = os.path.join(tmp_path, "")
    path += "./" * ((length - len(path)) // 2)
    ran = subprocess.run(
        [program, f"{tmp_path}/socket", "--state", path],
        stdin=subprocess.DEVNULL,
        capture_output=True,
        text=True,
        timeout=PATIENCE,
    )
    whole = f"refused: {path}: Invalid argument\n"
    assert ran.returncode == 2
    assert ran.stderr == (whole if len(whole) < MOST_LINE else whole[: MOST_LINE - 2] + "\n")


def test_a_link_in_the_place_of_a_state(serve_well):
    client = serve_well()
    state, other = client.file("state"), client.file("other")
    with open(other, "wb") as file:
        file.write(b"here")
    client.restart("--state", state)
    for name in (f"{state}.part", state):
        if os.path.lexists(name):
            os.remove(name)
        os.symlink(other, name)
        target(client, 5 + len(name))
        assert (state_of(other), len(state_of(state)), os.path.islink(state)) == (
            b"here",
            STATE_BYTES,
            False,
        )
        assert stat.S_IMODE(os.stat(state).st_mode) == 0o600
    client.connect()


def test_a_state_that_cannot_be_written(serve):
    client = serve()
    state = client.file("state")
    client.restart("--state", state)
    target(client, 5)
    before = state_of(state)
    os.mkdir(f"{state}.part")
    for pages in (6, 7, 8):
        target(client, pages)
    assert (client.backend.why(), state_of(state)) == (
        f"{state} isn't written: Is a directory",
        before,
    )
    client.connect()
    client.start_by_events()
    demand_served(client, INFLATE, [FIRST])
    assert client.is_at_rest(), "a state can't be written, and the backend tries again and again"
    os.rmdir(f"{state}.part")
    end = patience_from_now()
    while state_of(state) == before:
        assert time.monotonic() < end, "a state isn't written once it can be"
    client.counter("target")
    status, _ = client.close()
    assert (status, client.lines) == (
        0,
        [f"{state} isn't written: Is a directory", f"{state} is written again"],
    )


# Bytes of a path at most, and of what a state's file is called while it is written.
MOST_PATH, PART = 4095, len(".part")


@pytest.mark.parametrize("more", (0, 1))
def test_a_state_whose_path_has_no_room_for_its_part(serve, tmp_path, more):
    """No file of another name is made in its place."""
    room = MOST_PATH - PART - len(f"{tmp_path}/") + more
    path = f"{tmp_path}/" + "./" * ((room - 200) // 2)
    path += "s" * (MOST_PATH - PART + more - len(path))
    client = serve("--state", path)
    target(client, 5)
    assert os.listdir(tmp_path) == ([] if more else [os.path.basename(path)])
    assert client.close()[0] == 0
    assert client.lines == ([f"{path} isn't written: File name too long"[:510]] if more else [])


@pytest.mark.parametrize("most, said, kept", ((-1, "", 7), (0, "File too large", 0)))
def test_what_changes_in_the_last_round_is_in_the_state(program, tmp_path, most, said, kept):
    """And a file that may have no bytes (RLIMIT_FSIZE) can't be written, which ends nobody."""

    def run(lines):
        words = [program, f"{tmp_path}/socket", "--state", f"{tmp_path}/state"]
        how = {"input": lines, "capture_output": True, "text": True}
        limit = resource.RLIMIT_FSIZE, (most, most)
        return subprocess.run(words, **how, preexec_fn=lambda: resource.setrlimit(*limit))

    ran = run("target 7\nquit\n")
    said = said and f"{tmp_path}/state isn't written: {said}\n"
    assert (ran.returncode, ran.stderr) == (0, said)
    assert run("counters\nquit\n").stdout.startswith(f"listening\ntarget {kept} ")


def test_a_state_that_the_disk_does_not_keep(serve, wrong_program, tmp_path):
    client = serve(
        "--state",
        f"{tmp_path}/state",
        built=wrong_program,
        environment={"BACKEND_WRONG": "bad-disk"},
    )
    target(client, 5)
    assert not os.path.exists(
        f"{tmp_path}/state"
    ), "what the disk may not keep is in the place of what it keeps"
    assert client.close() == (0, f"{tmp_path}/state isn't written: Input/output error")
