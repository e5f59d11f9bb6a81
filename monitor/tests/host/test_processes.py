"""A process for each guest: who ends with whom, and what the lender has of a client."""

import contextlib
import ctypes
import fcntl
import os
import resource
import signal
import socket
import subprocess
import tempfile
import time

import pytest
from host_checks import files_of
from played import WAIT_ROOM, Message
from tenants import FREE, eventually, go_on, has_ended, process_of, status_of, stop
from test_awaits import GIVEN, begin
from test_strict import STRICT, Later
from vhost_client import ADD_MEM_REG, INFLATE, Client
from waiting import PATIENCE, sleeps_of


def test_a_second_host_of_a_folder_is_refused(lend, plain):
    lender = lend(5)
    ran = subprocess.run(
        [plain, lender.folder, "--budget", "5"],
        stdin=subprocess.DEVNULL,
        capture_output=True,
        text=True,
        timeout=PATIENCE,
    )
    assert (ran.returncode, ran.stdout, ran.stderr) == (
        2,
        "",
        f"{lender.folder} is another host's\n",
    )
    assert lender.demand("add a").startswith("listening")


def test_the_end_of_its_input_is_not_its_end(plain, tmp_path):
    with subprocess.Popen(
        [plain, str(tmp_path), "--budget", "5"],
        stdin=subprocess.DEVNULL,
        stdout=subprocess.PIPE,
        text=True,
    ) as host:
        assert host.stdout.readline() == "ready\n"
        with pytest.raises(subprocess.TimeoutExpired):
            host.wait(0.5)
        host.send_signal(signal.SIGTERM)
        assert host.wait(PATIENCE) == 0


def test_the_lender_has_no_file_of_a_client(lend, come):
    lender = lend(5)
    before = sorted(os.listdir(f"/proc/{lender.process.pid}/fd"))
    lender.demand("add a")
    listening = set(os.listdir(f"/proc/{lender.process.pid}/fd")) - set(before)
    come(lender, "a", {FREE: 60})
    added = set(os.listdir(f"/proc/{lender.process.pid}/fd")) - set(before) - listening
    links = sorted(os.readlink(f"/proc/{lender.process.pid}/fd/{it}").split(":")[0] for it in added)
    assert links == ["anon_inode", "socket"]  # its process, and the channel to it
    with open(f"/proc/{lender.process.pid}/maps", encoding="ascii") as maps:
        assert "memfd" not in maps.read()


@pytest.mark.parametrize("more, guests", (((), 64), (("--guests", "300"), 300)))
def test_a_lender_allows_itself_files_for_all_guests_and_clients(plain, tmp_path, more, guests):
    """Four for each guest, and one for each of 256 clients of two control sockets."""
    script = 'ulimit -S -n 50; exec "$0" "$@"'
    words = ["sh", "-c", script, plain, str(tmp_path), "--budget", "5", *more]
    with subprocess.Popen(words, stdin=subprocess.PIPE, stdout=subprocess.PIPE, text=True) as host:
        assert host.stdout.readline() == "ready\n"
        most, _ = resource.prlimit(host.pid, resource.RLIMIT_NOFILE)
        host.communicate("quit\n", timeout=PATIENCE)
    assert host.returncode == 0 and most >= 4 * guests + 2 * 256


def children_of(process):
    """Returns the processes that one has begun and that aren't waited for yet."""
    with open(f"/proc/{process}/task/{process}/children", encoding="ascii") as children:
        return [int(it) for it in children.read().split()]


@pytest.mark.parametrize("how", ("leaves", "is killed", "is refused"))
def test_a_process_that_has_ended_is_waited_for(lend, come, how):
    lender = lend(1, *STRICT)
    assert children_of(lender.process.pid) == []
    if how == "is refused":
        lender.demand("add a memory=1M"), lender.demand("terms a memory=4K")
        with contextlib.suppress(AssertionError, OSError, TypeError):
            Client(f"{lender.folder}/a").start()
    else:
        guest = come(lender, "a", {FREE: 100})
        (keeper,) = children_of(lender.process.pid)
        guest.leave() if how == "leaves" else os.kill(keeper, signal.SIGKILL)
    eventually(lambda: not children_of(lender.process.pid), "a process isn't waited for")
    lender.become("a", here=0)


# Files that a lender opens as a client comes, before it closes any: the ends of a channel, a socket
# for a later lender, and three that it hands on.
FILES_OF_COMING = 6


def test_of_a_client_that_finds_too_few_files_left_none_stays_open(lend):
    lender = lend(5)
    path, process = lender.add("a"), lender.process.pid
    had, limits = files_of(process), resource.prlimit(process, resource.RLIMIT_NOFILE)
    client = None
    for left in range(FILES_OF_COMING):
        said = len(lender.said())
        resource.prlimit(process, resource.RLIMIT_NOFILE, (had + left, limits[1]))
        client = client or Client(path, lambda: "")
        eventually(lambda: "a can't come: " in "".join(lender.said()[said:]), f"{left} are left")
        eventually(lambda: files_of(process) == had, f"files stay open where {left} are left")
        assert children_of(process) == []
    resource.prlimit(process, resource.RLIMIT_NOFILE, limits)
    client.start()
    lender.become("a", here=1, ready=1)
    client.leave()


def test_of_a_client_whose_place_for_a_later_lender_is_taken_none_stays_open(lend):
    lender = lend(5)
    path, place = lender.add("a"), f"{lender.folder}/.channels/a"
    had = files_of(lender.process.pid)
    os.remove(place), os.mkdir(place)
    client = Client(path, lambda: "")
    eventually(lambda: "a can't come: Address already in use" in "".join(lender.said()))
    eventually(lambda: files_of(lender.process.pid) == had, "files stay open")
    os.rmdir(place)
    client.start()
    lender.become("a", here=1, ready=1)
    client.leave()


# A guest's process that takes its client late.
LATE = """#!/bin/sh
sleep 0.5
exec {}/vhost_user_balloon "$@"
"""


def test_a_client_is_taken_once_however_late_its_process_takes_it(lend, plain, tmp_path):
    program = tmp_path / "late"
    program.write_text(LATE.format(os.path.dirname(plain)))
    program.chmod(0o755)
    lender = lend(5, "--program", str(program))
    counters = lambda: lender.status()["guests"][0]["counters"]["clients"]
    lender.add("a")
    with socket.socket(socket.AF_UNIX) as client:
        client.connect(f"{lender.folder}/a")
        eventually(counters)
        assert [counters() for _ in range(20)] == 20 * [1]
        assert lender.guests()["a"]["here"] == 1


def begun_with(program, *files):
    """Begins a guest's process with these files, as a lender hands them on; returns its number."""
    above = [fcntl.fcntl(it, fcntl.F_DUPFD_CLOEXEC, 100) for it in files]
    words = [program, "--lent", "--features", "100000027", "--", "a"]
    actions = [(os.POSIX_SPAWN_DUP2, file, 3 + number) for number, file in enumerate(above)]
    child = os.posix_spawn(program, words, os.environ, file_actions=actions)
    for file in above:
        os.close(file)
    return child


@contextlib.contextmanager
def begun(plain, folder, comes=lambda path: None):
    """A guest's process to which the test is the lender, after its client has come to a path:
    the process, the lender's end of its channel, and the client."""
    with contextlib.ExitStack() as opened:
        clients, later = (
            opened.enter_context(socket.socket(socket.AF_UNIX, kind | socket.SOCK_NONBLOCK))
            for kind in (socket.SOCK_STREAM, socket.SOCK_SEQPACKET)
        )
        for name, its in (("clients", clients), ("later", later)):
            its.bind(f"{folder}/{name}"), its.listen()
        ours, theirs = map(
            opened.enter_context, socket.socketpair(socket.AF_UNIX, socket.SOCK_SEQPACKET)
        )
        client = comes(f"{folder}/clients")
        files = [it.fileno() for it in (clients, theirs, later)]
        child = begun_with(f"{os.path.dirname(plain)}/vhost_user_balloon", *files)
        theirs.close()
        try:
            yield child, ours, client
        finally:
            with contextlib.suppress(ProcessLookupError):
                os.kill(child, signal.SIGKILL)
            with contextlib.suppress(ChildProcessError):
                os.waitpid(child, 0)


def test_a_process_that_finds_no_client_ends(plain, tmp_path):
    with begun(plain, tmp_path) as (child, _, _):
        _, status = eventually(lambda: (it := os.waitpid(child, os.WNOHANG))[0] and it)
    assert os.waitstatus_to_exitcode(status) == 1


def test_a_process_that_waits_for_room_asks_again(plain, tmp_path):
    """A lender that misses its report hears the next one."""
    with begun(plain, tmp_path, lambda path: Client(path, lambda: "")) as (_, ours, client):
        ours.settimeout(PATIENCE)
        client.negotiate()
        comes, asks = Later(client.hand_over_memory), 0
        while asks < 3:
            asks += Message.from_buffer_copy(ours.recv(ctypes.sizeof(Message))).waits == WAIT_ROOM
        client.socket.shutdown(2)
        comes.join(PATIENCE)
        client.leave()


def test_a_process_that_continues_knows_the_memory_that_it_has_pages_of(lend):
    """More memory comes, and nothing leaves the balloon by that."""
    lender = lend(5, "--floor", "0")
    client = Client(lender.add("a"), lambda: "")
    begin(client)
    client.post_pages(INFLATE, GIVEN)
    lender.reclaim("a", client, len(GIVEN))
    process = process_of(lender, "a")
    os.kill(process, signal.SIGKILL)
    eventually(lambda: process_of(lender, "a") not in (0, process))
    client.accepted(ADD_MEM_REG, client.region_body(1), client.files[1:])
    lender.become("a", pages=128)
    assert lender.guests()["a"]["ballooned"] == len(GIVEN)
    client.leave()


def test_another_process_goes_on_where_one_is_killed(lend, come):
    lender = lend(5)
    come(lender, "a", {FREE: 60}), come(lender, "b", {FREE: 60})
    process, other = process_of(lender, "a"), process_of(lender, "b")
    os.kill(process, signal.SIGKILL)
    eventually(lambda: process_of(lender, "a") != process)
    assert (lender.counters()["gone"], process_of(lender, "b")) == (0, other)
    lender.become("a", here=1, ready=1, answers=1)
    assert lender.said()[-1] == "a: its process has ended by signal 9: another one takes over"


def test_a_keeper_that_is_killed_ends_its_guest_alone(lend, come):
    lender = lend(5)
    come(lender, "a", {FREE: 60}), come(lender, "b", {FREE: 60})
    process = process_of(lender, "a")
    os.kill(int(status_of(process)["PPid"]), signal.SIGKILL)
    eventually(lambda: has_ended(process))
    lender.become("a", here=0, pages=0, held_kib=0)
    lender.become("b", here=1, ready=1)
    assert lender.said()[-2:] == ["a: its process has ended by signal 9", "gone a"]


def test_who_comes_once_another_has_gone_is_heard_by_files_of_the_same_numbers(lend, come):
    lender = lend(5)
    files = lambda: set(os.listdir(f"/proc/{lender.process.pid}/fd"))
    numbers = set()
    for name in ("a", "b", "c"):
        lender.demand(f"add {name}")
        before = files()
        guest = come(lender, name, {FREE: 60})
        numbers |= files() - before
        guest.leave()
        lender.become(name, here=0)
        eventually(
            lambda: files() == before, f"the lender has more files open than before {name} came"
        )
    assert len(numbers) < 6, f"files of {numbers} have come by three guests"


def test_a_process_that_stands_still_is_told_apart_from_a_silent_guest(lend, come):
    lender = lend(5, "--floor", "0", "--period", "400")  # three of them are less than a wait takes
    silent, _ = come(lender, "silent", {FREE: 60}), come(lender, "stuck", {FREE: 60})
    silent.answers = False
    process = process_of(lender, "stuck")
    stop(process)
    try:
        lender.become("silent", answers=0, reports=1)
        lender.become("stuck", reports=0)
        told = {it["name"]: it for it in lender.status()["guests"]}
        assert told["silent"]["silent"] >= 1.2 > told["silent"]["process_silent"]
        assert told["stuck"]["process_silent"] >= 1.2
        # Nobody waits for it: lines are answered at once.
        begin = time.monotonic()
        for _ in range(20):
            lender.guests()
        assert time.monotonic() - begin < 5
    finally:
        go_on(process)
    lender.become("stuck", reports=1, answers=1)


def test_a_process_that_was_just_asked_is_not_silent(lend, come):
    lender = lend(5, "--floor", "0", "--period", "60000")
    come(lender, "a", {FREE: 60})
    process = process_of(lender, "a")
    stop(process)
    try:
        assert lender.guests()["a"]["reports"] == 1  # for which it is asked
        assert lender.status()["guests"][0]["process_silent"] > 0
    finally:
        go_on(process)


def test_processes_end_with_the_lender_where_that_is_asked(lend, come):
    lender = lend(5, "--end-with-lender")
    come(lender, "a", {FREE: 60})
    process = process_of(lender, "a")
    lender.kill()
    eventually(lambda: has_ended(process), "a process lives on")


def test_quit_ends_all_processes_and_removes_all_sockets(lend, come):
    lender = lend(5)
    guests = [come(lender, it, {FREE: 60}) for it in ("a", "b")]
    lender.demand("add c")
    processes = [process_of(lender, it) for it in ("a", "b")]
    assert lender.close() == 0
    assert all(map(has_ended, processes))
    assert os.listdir(lender.folder) == ["backend.log"]
    assert guests[0].client.socket.recv(1) == b""


def test_quit_waits_for_no_process_of_its_own(lend):
    # One for each seat, that all wait for their turns, took seconds on a machine that is busy. A
    # folder on a disk may be waited for.
    with tempfile.TemporaryDirectory(dir="/dev/shm") as folder:
        lender = lend(5, folder=folder)
        for number in range(64):
            lender.demand(f"add guest-{number}")
        before = sleeps_of(lender.process.pid)
        lender.process.stdin.write(b"quit\n"), lender.process.stdin.flush()
        _, status, used = os.wait4(lender.process.pid, 0)
    waits = used.ru_nvcsw - before
    assert status == 0 and waits < 20, f"the lender waits {waits} times as it ends"


def test_a_program_that_is_not_there(plain, tmp_path):
    ran = subprocess.run(
        [plain, str(tmp_path), "--budget", "5", "--program", "/nowhere"],
        stdin=subprocess.DEVNULL,
        capture_output=True,
        text=True,
        timeout=PATIENCE,
    )
    assert (ran.returncode, ran.stderr) == (2, "/nowhere: No such file or directory\n")
