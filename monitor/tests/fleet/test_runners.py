"""Where the days of a fleet are replayed: on one process or four, on a Dask scheduler, and on one
whose workers are in network namespaces, one of them killed amid. The answer is the same, byte by
byte. And how far it is, which standard error says."""

import os
import pty
import re
import socket
import subprocess
import threading
import time

import pytest
from dask_hosts import Machines, end, eventually, free_port, lacks
from planner import CLIENT, run, words_of
from waiting import PATIENCE

# Guests on hosts that some find no room on: two promises, and six hosts at most for each.
FLEET = (
    "--fleet",
    "6",
    "--budget",
    "24G",
    "--make",
    "180",
    "--hours",
    "6",
    "--promises",
    "1.5..1.8",
    "--steps",
    "1",
    "--json",
)

# A fleet that takes some seconds.
LARGE = (
    "--fleet",
    "30",
    "--budget",
    "24G",
    "--make",
    "900",
    "--hours",
    "8",
    "--promises",
    "1.7",
    "--json",
)


@pytest.fixture(scope="module")
def wanted(shared):
    """The answer of one process."""
    return run(*FLEET, "--library", shared, "--processes", "1")


def test_four_processes(shared, wanted):
    assert run(*FLEET, "--library", shared, "--processes", "4") == wanted


def test_a_fleet_of_a_file(shared, wanted, tmp_path):
    path = tmp_path / "day.csv"
    path.write_text(run("--make", "180", "--hours", "6"))
    made = FLEET.index("--make")
    assert run(str(path), *FLEET[:made], *FLEET[made + 4 :], "--library", shared) == wanted


distributed = pytest.mark.skipif(
    subprocess.run(
        ["/usr/bin/python3", "-c", "import distributed"], capture_output=True, timeout=PATIENCE
    ).returncode
    != 0,
    reason="Dask isn't there: apt-get install python3-distributed",
)


@distributed
def test_a_scheduler_of_this_machine(shared, wanted, tmp_path):
    with Machines(tmp_path, "local") as machines:
        address = machines.scheduler("127.0.0.1", free_port())
        machines.work(address, [(), ()])
        assert run(*FLEET, "--library", shared, "--scheduler", address) == wanted


@distributed
@pytest.mark.timeout(900)
@pytest.mark.skipif(lacks() != "", reason=lacks())
def test_a_worker_that_is_killed_amid(shared, tmp_path):
    """The scheduler and the client are in one namespace, three workers each in their own. One is
    killed as a tenth is done, with what it has replayed and replays: the others do that again."""
    wanted = run(*LARGE, "--library", shared)
    with Machines(tmp_path, f"vb{os.getpid()}") as machines:
        machines.tie(4)
        address = machines.scheduler(machines.address(0), inside=machines.inside(0))
        machines.work(address, [machines.inside(it) for it in range(1, 4)])
        command, environment = words_of(*LARGE, "--library", shared, "--scheduler", address)
        words = [*machines.inside(0), *command]
        with subprocess.Popen(
            words, stdout=subprocess.PIPE, stderr=subprocess.PIPE, text=True, env=environment
        ) as plan:
            first = plan.stderr.readline()
            end(machines.workers[0])
            answer, rest = plan.communicate(timeout=PATIENCE)
    assert re.fullmatch(r"replayed 3 of \d+ hosts, .*\n", first), first + rest
    assert (answer, plan.returncode) == (wanted, 0)
    assert "100%" in rest


# A fleet that is small, where Dask isn't reached.
SMALL = ("--fleet", "2", "--budget", "4G", "--make", "4", "--hours", "1")


@distributed
def test_a_scheduler_that_is_not_there(shared):
    begin, port = time.monotonic(), free_port()
    said = run(*SMALL, "--library", shared, "--scheduler", f"tcp://127.0.0.1:{port}", status=3)
    assert said == f"bigvasta: --scheduler: nobody answers at tcp://127.0.0.1:{port}\n"
    assert time.monotonic() - begin < 20


# What somebody at the address of a scheduler says to each connection: nothing, or what is nothing
# of Dask's.
STRANGERS = {"mute": b"", "speaks otherwise": b"HTTP/1.1 400 Bad Request\r\n\r\n" * 10}


@distributed
@pytest.mark.parametrize("words", STRANGERS.values(), ids=list(STRANGERS))
def test_somebody_who_is_no_scheduler(shared, words):
    begin = time.monotonic()
    with socket.create_server(("127.0.0.1", 0)) as server:
        threading.Thread(target=take_all, args=(server, words), daemon=True).start()
        address = f"tcp://127.0.0.1:{server.getsockname()[1]}"
        said = run(*SMALL, "--library", shared, "--scheduler", address, status=3)
    assert said == (
        f"bigvasta: --scheduler: who answers at {address} doesn't speak as a Dask scheduler, "
        "in 10 s\n"
    )
    assert time.monotonic() - begin < 30


def take_all(server, words):
    """Takes each connection, and says these words there."""
    here = []
    while True:
        try:
            here.append(server.accept()[0])
            here[-1].sendall(words)
        except OSError:
            return


@distributed
def test_a_scheduler_without_workers(shared, tmp_path):
    with Machines(tmp_path, "local") as machines:
        address = machines.scheduler("127.0.0.1", free_port())
        words = *SMALL, "--library", shared, "--scheduler", address
        said = run(*words, status=3, limit=PATIENCE + 60)  # a minute goes by without a worker
        assert said == f"bigvasta: --scheduler: no worker comes to {address}\n"


@distributed
def test_a_scheduler_that_goes_away(shared, tmp_path):
    with Machines(tmp_path, "local") as machines:
        address = machines.scheduler("127.0.0.1", free_port())
        machines.work(address, [()])
        command, environment = words_of(*LARGE, "--library", shared, "--scheduler", address)
        with subprocess.Popen(
            command, stdout=subprocess.PIPE, stderr=subprocess.PIPE, text=True, env=environment
        ) as plan:
            plan.stderr.readline()
            end(machines.schedulers[0])
            answer, rest = plan.communicate(timeout=PATIENCE)
    assert (answer, plan.returncode, rest.splitlines()[-1]) == (
        "",
        3,
        f"bigvasta: --scheduler: {address} went away",
    )


@distributed
def test_a_worker_without_the_planner(shared, tmp_path):
    with Machines(tmp_path, "local") as machines:
        address = machines.scheduler("127.0.0.1", free_port())
        machines.work(address, [()], client=str(tmp_path))
        said = run(*SMALL, "--library", shared, "--scheduler", address, status=2)
        assert said == (
            "bigvasta: --scheduler: a worker lacks the module bigvasta: it needs the packages "
            "that this machine has\n"
        )


@distributed
def test_a_worker_of_another_version(shared, tmp_path):
    other = tmp_path / "client"
    subprocess.run(["cp", "-r", CLIENT, other], check=True, timeout=PATIENCE)
    (other / "bigvasta" / "__init__.py").write_text('__version__ = "0.0.1"\n')
    with Machines(tmp_path, "local") as machines:
        address = machines.scheduler("127.0.0.1", free_port())
        machines.work(address, [()], client=str(other))
        said = run(*SMALL, "--library", shared, "--scheduler", address, status=2)
        assert re.fullmatch(
            r"bigvasta: plan: a worker has bigvasta 0\.0\.1, and \d+\.\d+\.\d+ is wanted\n", said
        )


def test_a_package_that_is_missing(shared, tmp_path):
    (tmp_path / "distributed.py").write_text("raise ImportError\n")
    said = run(
        *SMALL,
        "--library",
        shared,
        "--scheduler",
        "tcp://127.0.0.1:1",
        status=2,
        path=f"{tmp_path}:{CLIENT}",
    )
    assert said == "bigvasta: --scheduler wants Dask: apt-get install python3-distributed\n"


def test_progress_on_a_terminal(shared):
    """A line that is rewritten: no end of line but the last one."""
    leader, follower = pty.openpty()
    command, environment = words_of(*FLEET, "--library", shared)
    text = b""
    with subprocess.Popen(
        command, stdout=subprocess.DEVNULL, stderr=follower, env=environment
    ) as plan:
        os.close(follower)
        while True:
            try:
                text += os.read(leader, 4096)
            except OSError:
                break
    os.close(leader)
    lines = text.decode().replace("\r\n", "\n").split("\r\x1b[K")
    assert plan.returncode == 0 and lines[0] == "" and len(lines) > 1
    assert all(
        re.fullmatch(r"replayed \d+ of 1[0-2] hosts, \d+%, \d+ s; about \d+ s to go\n?", it)
        for it in lines[1:]
    ), lines
    assert [it[-1] for it in lines[1:]] == ["o"] * (len(lines) - 2) + ["\n"]


def test_a_process_that_is_killed(shared):
    """What the kernel does for lack of memory is said in a line."""
    command, environment = words_of(*LARGE, "--library", shared, "--processes", "2")
    with subprocess.Popen(
        command, stdout=subprocess.PIPE, stderr=subprocess.PIPE, text=True, env=environment
    ) as plan:
        assert plan.stderr.readline().startswith("replayed 3 of ")
        os.kill(int(children_of(plan.pid)[0]), 9)
        answer, rest = plan.communicate(timeout=PATIENCE)
    assert (answer, plan.returncode) == ("", 4)
    assert (
        rest.splitlines()[-1]
        == "bigvasta: plan: one of its processes was ended, as by a lack of memory"
    )


def children_of(process):
    """Returns the processes that a process has started."""
    return subprocess.run(
        ["ps", "--ppid", str(process), "-o", "pid="],
        capture_output=True,
        text=True,
        timeout=PATIENCE,
    ).stdout.split()


def test_a_plan_that_is_killed_leaves_no_process(shared):
    command, environment = words_of(*LARGE, "--library", shared, "--processes", "2")
    with subprocess.Popen(
        command, stdout=subprocess.DEVNULL, stderr=subprocess.PIPE, text=True, env=environment
    ) as plan:
        plan.stderr.readline()
        children = children_of(plan.pid)
        plan.kill()
    assert len(children) == 2
    eventually(lambda: not any(os.path.exists(f"/proc/{it}") for it in children))


# Words of a command line that is refused, and what it says.
REFUSED = (
    (("--fleet", "2"), "plan: what is wanted is a FILE, or --make GUESTS"),
    (
        ("--fleet", "2", "--make", "4"),
        "plan: a fleet has a --budget, which each of its hosts has, and no --budgets",
    ),
    (
        (*SMALL, "--budgets", "1G..2G"),
        "plan: a fleet has a --budget, which each of its hosts has, and no --budgets",
    ),
    ((*SMALL, "--fleet", "0"), "--fleet: 0 isn't from 1 to 100000 hosts"),
    ((*SMALL, "--places", "0"), "--places: 0 isn't from 1 to 1000"),
    ((*SMALL, "--processes", "0"), "--processes: 0 isn't from 1 to 1024"),
    ((*SMALL, "--make", "0"), "--make: 0 isn't from 1 to 1000000 guests"),
    ((*SMALL, "--hours", "0"), "--hours: 0.0 isn't from 0.01 to 744"),
    ((*SMALL, "--promises", "2..1"), "--promises: '2..1' ends before it begins"),
    (
        (*SMALL, "--promises", "0"),
        "--promises: '0' isn't from 0.01 to 100, with two digits after the point",
    ),
    (
        (*SMALL, "--promises", "1.234"),
        "--promises: '1.234' isn't from 0.01 to 100, with two digits after the point",
    ),
    (
        (*SMALL, "--promises", "nan"),
        "--promises: 'nan' isn't from 0.01 to 100, with two digits after the point",
    ),
    ((*SMALL, "--budget", "8T", "--promises", "2"), "--promises: 2 times 8T isn't below 16T"),
    (
        (*SMALL, "--budget", "many"),
        "--budget: 'many' is no size: a number with K, M, G or T, in pages of 4K, such as 480M",
    ),
    (
        (*SMALL, "--budget", "4K", "--promises", "1"),
        "plan: no host may promise enough for any guest, by 1.00 times the budget",
    ),
    (
        (*SMALL, "--scheduler", "127.0.0.1:8786"),
        "--scheduler: '127.0.0.1:8786' is no tcp://HOST:PORT",
    ),
    (
        (*SMALL, "--scheduler", "tcp://127.0.0.1:1", "--processes", "2"),
        "plan: --processes are of this machine, and --scheduler has workers of its own",
    ),
    (("none.csv", "--fleet", "2", "--budget", "4G"), "none.csv: No such file or directory"),
    (
        ("none.csv", "--processes", "2"),
        "plan: --budget, --processes and --scheduler are for a --fleet",
    ),
)


@pytest.mark.parametrize(("words", "said"), REFUSED)
def test_refusals(shared, words, said):
    assert run(*words, "--library", shared, status=2) == f"bigvasta: {said}\n"
