"""The sandbox of a guest's process: what it may still call, and what ends it."""

import contextlib
import fcntl
import os
import re
import signal
import subprocess

import linux_kit
import pytest
from bigvasta.connection import Connection
from kept import Kept
from taken import call_within
from tenants import FREE, eventually, process_of, status_of
from test_strict import GIVEN

# Calls that a process makes as it serves a guest, whatever their arguments, and with arguments that
# are all 0. Of all numbers that a kernel of these years knows, and of some more, each other one
# ends it.
ALLOWED = set(
    """accept4 recvmsg recvmmsg poll ppoll getsockopt read write preadv2 pread64 splice setitimer
    close munmap madvise fallocate fstatfs fstat lseek brk mremap clock_gettime gettimeofday
    getrandom rt_sigaction rt_sigprocmask rt_sigreturn restart_syscall futex exit exit_group getpid
    gettid""".split()
)
ALLOWED_WITH_ZEROS = {"sendto", "mmap"}
# Linux since 6.11 asks no filter of two that come from probes of its own: uretprobe and uprobe.
NUMBERS = sorted({*range(512)} - {335, 336})

# What /proc has of a process's limits: bytes of its own memory, numbers of its files, and how many
# processes its user may have for it to make one.
LIMITS = {"Max data size": 64 << 20, "Max open files": 206, "Max processes": 0}

# A user without privileges.
SOME_USER = 65533

# Calls of another architecture on this processor: x32's have this bit.
X32 = 1 << 30

# The process that makes the call, its parent, and a path, as sandbox_calls.c has them; and a
# process that isn't there.
OWN, PARENT, PATH, NOBODY = (*range(-(1 << 63), 3 - (1 << 63)), 0x7FFFFFFE)

# A call by its name and its number, arguments before the one that counts, values of that one with
# which it comes back, and others that end it.
LARGE = 1 << 32
COMMANDS = {fcntl.F_GETFL, fcntl.F_SETFL, fcntl.F_ADD_SEALS}
BY_ARGUMENT = (
    ("sendto", 44, (0, 0, 0, 0), (0,), (1, LARGE, 0x7FFF00000000)),
    ("mmap", 9, (0, 4096), (0, 1, 2, 3), (4, 5, 6, 7)),
    ("writev", 20, (), (2,), (0, 1, 3, 2 | LARGE)),
    (
        "tgkill",
        234,
        (OWN, OWN),
        (signal.SIGABRT,),
        (0, signal.SIGKILL, signal.SIGSEGV, signal.SIGABRT | LARGE),
    ),
    ("tgkill", 234, (NOBODY, OWN), (), (0, signal.SIGABRT)),
    (
        "fcntl",
        72,
        (0,),
        COMMANDS,
        {*range(40), *range(1024, 1064), *(it | LARGE for it in COMMANDS)} - COMMANDS,
    ),
)
from waiting import PATIENCE

# Calls that a process may make outside of the sandbox, and what the kernel says to each where the
# filter alone is left out: a folder is opened; a file gets a number; another process, which isn't
# there for it, is signalled; a child is made, by another user than root.
DIRECTORY, OPENS, DUPLICATES, FORKS, KILLS = 0o200000, 257, 72, 57, 62
SENDS, GETS_NUMBER, PUNCHES = 46, 39, 285
CONFINED = (
    ((OPENS, -100, PATH, DIRECTORY), "EACCES"),
    ((DUPLICATES, 0, fcntl.F_DUPFD, 206), "EINVAL"),
    ((DUPLICATES, 0, fcntl.F_DUPFD, 205), "passes"),
    ((FORKS,), "EAGAIN"),
    ((KILLS, PARENT, 0), "ESRCH"),
    ((KILLS, OWN, 0), "passes"),
)


@pytest.fixture(scope="module")
def outcomes(tmp_path_factory):
    """Makes calls in the sandbox, by their numbers with arguments; returns what came of each: its
    name, and by the name of which call it ended; or, without the filter, which error it had."""
    lines_file = tmp_path_factory.mktemp("sandbox") / "lines"

    def made(calls, *how, user=None):
        lines_file.write_text(
            "\n".join(" ".join(map(str, map(int, (*it, *(7 - len(it)) * (0,))))) for it in calls)
        )
        lines_file.chmod(0o644), lines_file.parent.chmod(0o755)
        words = [linux_kit.built("plain/sandbox_calls"), "/dev/stdin" if user else lines_file, *how]
        with open(lines_file if user else os.devnull, encoding="ascii") as lines:
            ran = subprocess.run(
                words, capture_output=True, text=True, stdin=lines, timeout=PATIENCE, user=user
            )
        assert ran.returncode == 0, ran
        return [it.split() for it in ran.stdout.splitlines()]

    return made


@pytest.mark.skipif(os.geteuid() != 0, reason="needs another user")
def test_what_is_beside_the_filter(outcomes):
    calls = [it for it, _ in CONFINED]
    free = outcomes(calls, "free", user=SOME_USER)
    assert {by for _, by in free} == {"passes"}, free
    found = outcomes(calls, "confined", user=SOME_USER)
    assert [by for _, by in found] == [it for _, it in CONFINED], found


def test_each_call_by_its_number(outcomes):
    found = outcomes([(it,) for it in NUMBERS])
    assert len(found) == len(NUMBERS)
    wrong = [
        (name, by)
        for name, by in found
        if by != ("passes" if name in ALLOWED | ALLOWED_WITH_ZEROS else name)
    ]
    assert not wrong and ALLOWED < {name for name, _ in found}, wrong


@pytest.mark.parametrize(
    "name, number, before, good, bad", BY_ARGUMENT, ids=[it[0] for it in BY_ARGUMENT]
)
def test_each_call_by_its_argument(outcomes, name, number, before, good, bad):
    values = [*good, *bad]
    found = outcomes([(number, *before, it) for it in values])
    wrong = [
        (it, by) for it, (_, by) in zip(values, found) if by != ("passes" if it in good else name)
    ]
    assert len(found) == len(values) and not wrong, wrong


def test_calls_of_another_architecture(outcomes):
    assert {by for _, by in outcomes([(X32 | it,) for it in (0, 1, 60, 512, 520)])} == {"nameless"}


def test_a_guest_s_process_is_shut_in(lend, come):
    lender = lend(5)
    come(lender, "a", {FREE: 60})
    process = process_of(lender, "a")
    status = status_of(process)
    assert (status["NoNewPrivs"], status["Seccomp"], int(status["CapPrm"], 16)) == ("1", "2", 0)


def namespaces_of(process):
    """Returns which namespaces a process has, of processes and of users."""
    return [os.readlink(f"/proc/{process}/ns/{it}") for it in ("pid", "user")]


def numbers_of(process):
    """Returns the numbers of a process: in the namespace of this one, and in those below."""
    return [int(it) for it in status_of(process)["NSpid"].split()]


def kill(lender, name):
    """Kills a guest's process."""
    os.kill(process_of(lender, name), signal.SIGKILL)


def renew(lender, name):
    """Has another process of the program that is there continue with a guest."""
    with Connection(f"{lender.folder}/.control") as control:
        control.ask("renew", name=name)


@pytest.mark.parametrize("act", (None, kill, renew))
def test_a_process_is_alone(lend, come, act):
    """So is each that continues with a guest."""
    lender = lend(5)
    come(lender, "a", {FREE: 60}), come(lender, "b", {FREE: 60})
    first = process_of(lender, "a")
    if act:
        act(lender, "a")
        eventually(lambda: process_of(lender, "a") not in (0, first))
    processes = [lender.process.pid, *(process_of(lender, it) for it in "ab")]
    for of_one in zip(*map(namespaces_of, processes)):
        assert len(set(of_one)) == len(processes), of_one
    assert [numbers_of(it) for it in processes[1:]] == [[it, 1] for it in processes[1:]]
    users = [status_of(it)["Uid"] for it in processes]
    assert users == 3 * users[:1]
    assert not [it for it in lender.said() if "namespaces" in it]


# A machine whose kernel gives nobody another namespace of users: the limit is that of this one.
NO_NAMESPACES = """#!/bin/sh
exec unshare --user --map-root-user sh -c 'echo 0 > /proc/sys/user/max_user_namespaces
exec "$0" "$@"' {} "$@"
"""


def test_a_process_that_gets_no_namespaces_goes_on_without(lend, come, plain, tmp_path):
    program = tmp_path / "host"
    program.write_text(NO_NAMESPACES.format(plain))
    program.chmod(0o755)
    lender = lend(5, program=str(program))
    come(lender, "a", {FREE: 60})
    assert numbers_of(process_of(lender, "a")) == [process_of(lender, "a")]
    assert status_of(process_of(lender, "a"))["Seccomp"] == "2"
    lender.hear()
    said = [it for it in lender.said() if "namespaces" in it]
    assert said == ["a: the kernel gives its process no namespaces of its own"]


@pytest.mark.parametrize("nice, wanted", ((-5, 0), (0, 0), (3, 3)))
def test_a_lender_has_more_of_the_processors_than_processes(lend, come, nice, wanted):
    lender = lend(5)
    try:
        os.setpriority(os.PRIO_PROCESS, lender.process.pid, nice)
    except PermissionError:
        pytest.skip("this user may not raise a process's share")
    come(lender, "a", {FREE: 60})
    assert os.getpriority(os.PRIO_PROCESS, process_of(lender, "a")) == wanted


def test_a_process_has_the_files_that_it_was_handed_and_no_other(lend, come):
    lender = lend(5)
    come(lender, "a", {FREE: 60}), come(lender, "b", {FREE: 60})
    process = process_of(lender, "b")
    files = sorted(map(int, os.listdir(f"/proc/{process}/fd")))
    links = [os.readlink(f"/proc/{process}/fd/{it}") for it in files]
    assert (files[:3], links[:3]) == ([0, 1, 2], 3 * ["/dev/null"])
    known = [
        it
        for it in links
        if it.startswith(("socket:", "pipe:", "anon_inode:[signalfd]", "/memfd:", "/dev/null"))
    ]
    assert sorted(known) == sorted(links)
    # Its client, its lender, a later lender, and the channel of its client; both ends of the way by
    # which answers go.
    counts = [len([it for it in links if it.startswith(kind)]) for kind in ("socket:", "pipe:")]
    assert counts == [4, 2] and len({it for it in links if it.startswith("pipe:")}) == 1, links


def test_a_process_has_limits(lend, come):
    lender = lend(5)
    come(lender, "a", {FREE: 60})
    with open(f"/proc/{process_of(lender, 'a')}/limits", encoding="ascii") as lines:
        rows = [re.split(" {2,}", it.strip()) for it in lines]
    assert {it[0]: it[1:3] for it in rows if it[0] in LIMITS} == {
        it: [str(most)] * 2 for it, most in LIMITS.items()
    }


@pytest.fixture
def lends_within(lend, plain, tmp_path):
    """Starts a lender of one guest within a limit, which it may not raise."""

    def begin(option, most):
        program = tmp_path / "host"
        program.write_text(f'#!/bin/sh\nexec prlimit --{option}={most} {plain} "$@"\n')
        program.chmod(0o755)
        return lend(5, "--guests", "1", program=str(program))

    return begin


@pytest.mark.parametrize("option, what", (("nofile", "open files"), ("data", "own memory")))
def test_a_process_whose_limit_is_lower_goes_on_and_says_so(lends_within, come, option, what):
    most = LIMITS["Max open files" if option == "nofile" else "Max data size"]
    lender = lends_within(option, most - 1)
    come(lender, "a", {FREE: 60})
    lender.hear()
    said = [it for it in lender.said() if it.startswith("a: ")]
    assert said == [f"a: its {what} can't be limited: Operation not permitted"]


def test_a_process_has_its_channel_open_until_its_memory_is_closed(lends_within, come):
    """As it ends, the lower numbers are closed first: by its limit there is room for that order."""
    lender = lends_within("nofile", LIMITS["Max open files"])
    come(lender, "a", {FREE: 60})
    kept = Kept(process_of(lender, "a"))
    regions, ways = kept["regions.file"][:2], [kept[f"notes.{it}"] for it in ("channel", "later")]
    assert ["/memfd:region" in kept.link(it) for it in regions] == [True, True]
    assert max(regions) < min(ways), f"its memory is {regions}, and its channels are {ways}"


@contextlib.contextmanager
def scored(process):
    """Opens the score by which the kernel chooses whom to kill."""
    with open(f"/proc/{process}/oom_score_adj", "r+", encoding="ascii") as its:
        yield its


@pytest.mark.parametrize("score, wanted", ((-900, 0), (0, 100), (950, 1000)))
def test_a_process_is_killed_before_its_lender(lend, come, score, wanted):
    lender = lend(5)
    try:
        with scored(lender.process.pid) as its:
            its.write(str(score))
    except PermissionError:
        pytest.skip("this user may not lower a score")
    come(lender, "a", {FREE: 60})
    with scored(process_of(lender, "a")) as its:
        assert int(its.read()) == wanted


@pytest.mark.parametrize(
    "what", ("opens", "forks", "signals its keeper", "signals its lender", "sends a file")
)
def test_a_process_that_is_taken_over_does_no_more_than_serve(lend, come, what):
    lender = lend(5)
    guest, other = come(lender, "a", {FREE: 60}), come(lender, "b", {FREE: 60})
    process = process_of(lender, "a")
    calls = {
        "opens": (OPENS, -100, 0),
        "forks": (FORKS,),
        "signals its keeper": (KILLS, int(status_of(process)["PPid"]), signal.SIGKILL),
        "signals its lender": (KILLS, lender.process.pid, signal.SIGKILL),
        "sends a file": (SENDS, 0, 0, 0),
    }
    assert call_within(process, *calls[what]) is None
    lender.become("a", here=0, pages=0)
    other.give(GIVEN[:5])
    lender.become("b", here=1, ready=1, ballooned=5)
    assert guest.client.socket.recv(1) == b""


def test_what_a_taken_over_process_may_call_reaches_nobody(lend, come):
    lender = lend(5)
    come(lender, "a", {FREE: 60})
    process = process_of(lender, "a")
    assert call_within(process, GETS_NUMBER) == 1
    # Its standard error is nobody's: neither a line nor a hole is seen in the lender's.
    assert call_within(process, PUNCHES, 2, 3, 0, 1 << 20) < 0
    assert [os.readlink(f"/proc/{process}/fd/{it}") for it in (1, 2)] == 2 * ["/dev/null"]
    # What it says by its channel, of the answers that it takes for those to its own calls, has its
    # guest's name.
    assert [it for it in lender.said() if not it.startswith("a: ")] == []


def test_it_is_said_who_has_made_such_a_call(lend, come):
    lender = lend(5)
    come(lender, "a", {FREE: 60}), come(lender, "b", {FREE: 60})
    assert call_within(process_of(lender, "a"), OPENS) is None
    eventually(
        lambda: "a: its process has ended by a system call that isn't allowed" in lender.said(),
        lender.said,
    )
    lender.become("a", here=0)
    lender.become("b", here=1, ready=1)
