"""The client program: what each command prints, its exit statuses, and how it takes words."""

import json
import os
import socket
import subprocess
import threading
import time

import pytest
from bigvasta.connection import Connection
from bigvasta.statuses import Unclear
from installed import CLIENT, bigvasta
from linux_guest import Lines
from waiting import PATIENCE, eventually, patience_from_now

MIB = 1 << 20

HELP = ("", "status", "guest", "add", "remove", "budget", "floor", "log", "watch", "metrics")


@pytest.mark.parametrize("command", HELP)
def test_help(host, command):
    said = bigvasta(host.control, *command.split(), "--help")
    assert (said.returncode, said.stderr) == (0, "")
    assert said.stdout.startswith(f"usage: bigvasta {command}".rstrip())
    assert "exit statuses" in said.stdout or command


def test_version(host):
    said = bigvasta(host.control, "--version")
    with open(os.path.join(os.path.dirname(CLIENT), "VERSION"), encoding="utf-8") as file:
        assert (said.returncode, said.stdout) == (0, f"bigvasta {file.read()}")


# Words, the status, and how what is said begins: on standard output, and on standard error.
NO_USER = "a user of this machine, a user's number, or none"
COMMANDS = (
    ("status", 0, "budget 480, held 0, lent 0, missing 0 MiB; tier none; 0 guests; version ", ""),
    ("add web-1", 0, "{folder}/web-1\n", ""),
    (
        "add web-1",
        1,
        "",
        "bigvasta: a guest is named web-1 already: `bigvasta guest NAME KEY=VALUE` changes it\n",
    ),
    ("add web.1", 1, "", "bigvasta: web.1: a name has 1 to 31 letters"),
    ("status --names", 0, "web-1\n", ""),
    ("guest web-1", 0, "web-1: absent, at {folder}/web-1\n  memory            0 MiB\n", ""),
    (
        "guest web-2",
        1,
        "",
        "bigvasta: no guest is named web-2: `bigvasta status --names` has those that there are\n",
    ),
    ("guest web-1 target=4M", 1, "", "bigvasta: web-1: nobody is there\n"),
    (
        "guest web-1 target",
        2,
        "",
        (
            "bigvasta: web-1: 'target' is none of least=, most=, priority=, weight=, strict=, "
            "overhead=, limit=, user=, memory=, start=, target=\n"
        ),
    ),
    (
        "guest web-1 size=4M",
        2,
        "",
        (
            "bigvasta: web-1: 'size=4M' is none of least=, most=, priority=, weight=, strict=, "
            "overhead=, limit=, user=, memory=, start=, target=\n"
        ),
    ),
    ("guest web-1 target=1M target=2M", 2, "", "bigvasta: web-1: target= is said twice\n"),
    (
        "guest web-1 target=4",
        2,
        "",
        (
            "bigvasta: web-1: target: '4' is no size: a number with K, M, G or T, in pages of 4K, "
            "such as 480M\n"
        ),
    ),
    (
        "guest web-1 weight=0",
        2,
        "",
        "bigvasta: web-1: weight: '0' is no whole number from 1 to 4294967295\n",
    ),
    (
        "guest web-1 priority=-1",
        2,
        "",
        "bigvasta: web-1: priority: '-1' is no whole number up to 4294967295\n",
    ),
    ("guest web-1 strict=true", 2, "", "bigvasta: web-1: strict: 'true' is neither yes nor no\n"),
    (
        "guest web-1 limit=/x",
        2,
        "",
        "bigvasta: web-1: limit: '/x' is none of cgroup:PATH, tmpfs:MOUNT and none\n",
    ),
    (
        "guest web-1 strict=yes limit=tmpfs:/x/..",
        1,
        "",
        "bigvasta: web-1: limit: a path from / on, without ., .. or a slash too many\n",
    ),
    ("guest web-1 strict=yes limit=tmpfs:/etc", 1, "", "bigvasta: web-1: no mount of tmpfs\n"),
    (
        "guest web-1 strict=no limit=tmpfs:/etc",
        1,
        "",
        "bigvasta: web-1: a limit is for a strict guest, whose deflates wait until it is raised\n",
    ),
    ("guest web-1 overhead=8M limit=none", 0, "web-1: absent, at {folder}/web-1\n", ""),
    ("guest web-1 memory=9", 2, "", "bigvasta: web-1: memory: '9' is no size: "),
    ("guest web-1 user=no-such", 1, "", f"bigvasta: web-1: user: {NO_USER}\n"),
    ("guest web-1 user=root memory=9M", 0, "web-1: absent, at {folder}/web-1\n", ""),
    ("guest web-1 start=9", 2, "", "bigvasta: web-1: start: '9' is no size: "),
    ("guest web-1 start=9M", 1, "", "bigvasta: web-1: a start is for a guest that has a limit\n"),
    ("guest web-1 start=none", 0, "web-1: absent, at {folder}/web-1\n", ""),
    ("guest web-1 user=none memory=none", 0, "web-1: absent, at {folder}/web-1\n", ""),
    (
        "add web-3 target=1M",
        2,
        "",
        (
            "bigvasta: web-3: 'target=1M' is none of least=, most=, priority=, weight=, strict=, "
            "overhead=, limit=, user=, memory=, start=\n"
        ),
    ),
    ("budget", 0, "480 MiB\n", ""),
    ("budget 500M", 0, "500 MiB, until the host restarts\n", ""),
    ("budget 1G", 0, "1024 MiB, until the host restarts\n", ""),
    ("budget 0M", 1, "", "bigvasta: budget: a budget of one page or more\n"),
    ("budget 6K", 2, "", "bigvasta: budget: '6K' is no size"),
    ("floor", 0, "12 MiB\n", ""),
    ("floor 0M", 0, "0 MiB, until the host restarts\n", ""),
    ("remove web-1", 0, "web-1 is removed, until the host restarts\n", ""),
    (
        "remove web-1",
        1,
        "",
        "bigvasta: no guest is named web-1: `bigvasta status --names` has those that there are\n",
    ),
    ("", 2, "", "usage: bigvasta"),
    ("nope", 2, "", "usage: bigvasta"),
    ("watch --interval 0", 2, "", "bigvasta: --interval: 0.0 isn't from 0.1 to 60 seconds\n"),
    (
        "metrics --listen 5",
        2,
        "",
        "bigvasta: --listen: '5' is no HOST:PORT, such as localhost:9750\n",
    ),
    ("metrics --json", 2, "", "usage: bigvasta"),
    ("serve --json", 2, "", "usage: bigvasta"),
    ("metrics --listen localhost:0", 2, "", "bigvasta: --listen: 'localhost:0' is no HOST:PORT"),
    (
        "metrics --listen localhost:65536",
        2,
        "",
        "bigvasta: --listen: 'localhost:65536' is no HOST:PORT",
    ),
)


def test_commands(host):
    for words, code, said, fault in COMMANDS:
        ran = bigvasta(host.control, *words.split())
        assert ran.returncode == code, (words, ran)
        assert ran.stdout.startswith(said.format(folder=host.folder)) and bool(ran.stdout) == bool(
            said
        ), (words, ran.stdout)
        assert ran.stderr.startswith(fault) and bool(ran.stderr) == bool(fault), (words, ran.stderr)


def test_json_of_each_command(host):
    for words, field in (
        ("status", "guests"),
        ("add a", "guest"),
        ("guest a", "guest"),
        ("budget", "budget"),
        ("floor", "floor"),
        ("remove a", "ok"),
    ):
        ran = bigvasta(host.control, *words.split(), "--json")
        assert field in json.loads(ran.stdout) and ran.stdout.count("\n") == 1, (words, ran)
    host.ask("budget", bytes=400 * MIB)
    eventually(lambda: host.status()["counters"]["decisions"])
    lines = bigvasta(host.control, "log", "--json").stdout.splitlines()
    assert "budget" in [json.loads(it).get("reason") for it in lines]


def test_no_host(tmp_path):
    for path, why in (
        (f"{tmp_path}/none", "No such file or directory"),
        ("/dev/null", "Connection refused"),
        ("x" * 200, "AF_UNIX path too long"),
    ):
        ran = bigvasta(path, "status")
        words = f"bigvasta: no host answers at {path}: is bigvasta-host running? ({why})\n"
        assert (ran.returncode, ran.stdout, ran.stderr) == (3, "", words)
    ran = bigvasta("", "status", "--control", f"{tmp_path}/none")
    assert ran.returncode == 3


def test_a_socket_that_is_for_others(host):
    """Who may not open it is told for whom it is, and not that nobody is there."""
    if os.geteuid():
        pytest.skip("this isn't root")
    os.chmod(host.folder, 0o755)
    ran = subprocess.run(
        ["setpriv", "--reuid=65534", "--clear-groups", "/usr/bin/python3", "-B", "-m", "bigvasta"]
        + ["budget", "1G", "--control", host.control],
        capture_output=True,
        text=True,
        timeout=PATIENCE,
        env={**os.environ, "PYTHONPATH": CLIENT},
    )
    words = f"no host answers at {host.control}: its socket is for others (root, by the package)"
    assert (ran.returncode, ran.stdout, ran.stderr) == (3, "", f"bigvasta: {words}\n")


# What a host might answer that is none.
ANSWERS = (
    (b"", "the host went away amid an answer"),
    (b'{"version": 1', "the host went away amid an answer"),
    (b"x\n", "the host's answer is no JSON"),
    (b"[]\n", "the host doesn't speak version 1 of the protocol"),
    (b'{"version": 2}\n', "the host doesn't speak version 1 of the protocol"),
)


@pytest.mark.parametrize("answer, why", ANSWERS)
def test_a_host_that_is_none(folder, answer, why):
    path = f"{folder}/socket"
    with socket.socket(socket.AF_UNIX) as listener:
        listener.bind(path)
        listener.listen()

        def serve():
            client, _ = listener.accept()
            client.recv(4096)
            client.sendall(answer)
            client.close()

        threading.Thread(target=serve, daemon=True).start()
        ran = bigvasta(path, "budget")
    assert (ran.returncode, ran.stdout, ran.stderr) == (4, "", f"bigvasta: {path}: {why}\n")


@pytest.fixture
def log(host):
    """Returns the next line of a log that is followed through a pipe, after its time: it is there
    at once, whatever the environment says of what a program keeps back."""
    words = ["/usr/bin/python3", "-B", "-m", "bigvasta", "log", "-f", "--control", host.control]
    environment = {**os.environ, "PYTHONPATH": CLIENT}
    environment.pop("PYTHONUNBUFFERED", None)
    host.ask("budget", bytes=400 * MIB)
    with subprocess.Popen(words, stdout=subprocess.PIPE, env=environment) as it:
        lines = Lines(it.stdout, "the log")
        yield lambda: lines.next(patience_from_now()).split(" ", 1)[1]
        it.terminate()


def test_log_that_is_followed(host, arrive, log):
    first = [log() for _ in range(2)]
    assert first[0].startswith("changed budget 480M > 400M by user "), first
    assert first[1] == "decision 0: budget; budget 400, tier none; targets: no guests"
    eventually(lambda: host.status()["control"]["clients"] == 2)
    arrive("a")
    wanted = ["added a", "arrived a", "decision 1: guests; budget 400, tier none; targets: a 0"]
    said = []
    while not set(wanted) <= set(said):
        said.append(log())
    assert [it for it in said if it in wanted] == wanted, said


def test_who_follows_waits_longer_than_for_an_answer(host):
    with Connection(host.control, 0.5) as follower:
        events = follower.follow()
        threading.Timer(1.5, lambda: host.ask("add", name="a")).start()
        assert [next(events)["event"] for _ in range(2)] == ["changed", "added"]


def test_a_request_has_the_whole_time_limit(monkeypatch):
    """Whatever the wait for an answer before it has left: the host reads a second later."""
    ours, host = socket.socketpair()
    monkeypatch.setattr(Connection, "reach", lambda _: ours)
    with host, Connection("", PATIENCE) as it:
        with pytest.raises(Unclear):
            it.read(time.monotonic() + 0.1)
        threading.Timer(1, lambda: host.recv(1 << 22, socket.MSG_WAITALL)).start()
        it.send("x" * ((1 << 22) - 1))


def test_a_reader_that_goes_ends_it(host):
    host.ask("budget", bytes=400 * MIB)
    ran = subprocess.run(
        [
            "/bin/sh",
            "-c",
            f"/usr/bin/python3 -B -m bigvasta status --control {host.control} | true; exit 0",
        ],
        capture_output=True,
        text=True,
        env={**os.environ, "PYTHONPATH": CLIENT},
        timeout=PATIENCE,
    )
    assert ran.stderr == ""


FULL = "bigvasta: standard output: No space left on device\n"
NO_TERMINAL = "bigvasta: watch wants a terminal: --json prints a line at each look instead\n"

# What a shell has run, with streams that are closed, full or no terminal; its exit status; and what
# is said on standard error. Standard output has nothing.
STREAMS = (
    ("status >&-", 0, ""),
    ("status >/dev/full", 4, FULL),
    ("status --json >/dev/full", 4, FULL),
    ("budget 400M >/dev/full", 4, FULL),
    ("watch --json >/dev/full", 4, FULL),
    ("status 2>&- >/dev/full", 4, ""),
    ("status --control /none 2>&-", 3, ""),
    ("budget 400M <&- >&- 2>&-", 0, ""),
    ("watch", 2, NO_TERMINAL),
    ("watch <&-", 2, NO_TERMINAL),
)


@pytest.mark.parametrize(("words", "status", "said"), STREAMS)
def test_streams_that_are_closed_or_full(host, words, status, said):
    host.ask("budget", bytes=480 * MIB)
    ran = subprocess.run(
        ["/bin/sh", "-c", f"exec /usr/bin/python3 -B -m bigvasta {words}"],
        stdin=subprocess.DEVNULL,
        capture_output=True,
        text=True,
        env={**os.environ, "PYTHONPATH": CLIENT, "BIGVASTA_CONTROL": host.control},
        timeout=PATIENCE,
    )
    assert (ran.returncode, ran.stdout, ran.stderr) == (status, "", said)
    assert host.status()["budget"] == (400 if "400M" in words else 480) * MIB
