"""The system calls that a process makes, in their order, by ptrace: `python3 system_calls.py PID`
writes a line of each with its first three arguments, until it is told to end. `PID N` kills the
process at the nth place: each call has one as it begins, and one as it ends."""

import collections
import contextlib
import ctypes
import os
import re
import signal
import subprocess
import sys
import tempfile

import pytest
from waiting import eventually

HEADER = "/usr/include/x86_64-linux-gnu/asm/unistd_64.h"

# ptrace(2): requests, the option that marks stops at calls, their signal, and the event of a stop
# that was asked for.
SEIZE, INTERRUPT, SYSCALL, CALL_INFO = 0x4206, 0x4207, 24, 0x420E
MARKS_CALLS, CALL_STOP, ASKED_STOP = 1, signal.SIGTRAP | 0x80, 128

# Milliseconds from which on a poll is a sleep.
SLEEP = 1000


class Info(ctypes.Structure):
    """struct ptrace_syscall_info: `op` is 1 as a call begins."""

    _fields_ = [
        ("op", ctypes.c_uint8),
        ("unused", ctypes.c_uint8 * 7),
        ("at", ctypes.c_uint64 * 2),
        ("number", ctypes.c_uint64),
        ("arguments", ctypes.c_uint64 * 6),
    ]


def ptrace(request, pid, at=0, data=0):
    """Asks the kernel."""
    library = ctypes.CDLL(None, use_errno=True)
    words = [ctypes.c_void_p(it) for it in (at, data)]
    if library.ptrace(ctypes.c_long(request), ctypes.c_long(pid), *words) < 0:
        raise OSError(ctypes.get_errno(), f"ptrace {request:#x} of {pid}")


def names_of_calls():
    """Returns the name of each number."""
    with open(HEADER, encoding="ascii") as header:
        found = re.findall(r"#define __NR_(\w+) (\d+)", header.read())
    return {int(number): name for name, number in found}


def calls(pid):
    """Yields what the kernel says of each call as it begins and as it ends, and lets signals
    pass."""
    info, passes = Info(), 0
    ptrace(SEIZE, pid, 0, MARKS_CALLS)
    ptrace(INTERRUPT, pid)
    while True:
        status = os.waitpid(pid, 0x40000000)[1]
        if not os.WIFSTOPPED(status):
            return
        passes = 0 if status >> 16 == ASKED_STOP else os.WSTOPSIG(status)
        if passes == CALL_STOP:
            passes = 0
            ptrace(CALL_INFO, pid, ctypes.sizeof(info), ctypes.addressof(info))
            yield info
        ptrace(SYSCALL, pid, 0, passes)


def look(pid, left):
    """Writes each call as it begins, and kills the process at its last place."""
    names = names_of_calls()
    for its in calls(pid):
        if its.op == 1:
            print(names.get(its.number, its.number), *its.arguments[:3], flush=True)
        left -= 1
        if left == 0:
            os.kill(pid, signal.SIGKILL)
            return


class Calls:
    """The calls of a process since it was looked at; each is its name and arguments."""

    def __init__(self, file):
        self.file, self.begin = file, 0

    def all(self):
        """Returns them in order."""
        with open(self.file, encoding="ascii") as lines:
            return [it.split() for it in lines.read().splitlines()[self.begin :]]

    def sleeps(self):
        """Whether it has made calls, and sleeps: the last one waits for long."""
        last = self.all()[-1:]
        return bool(last) and last[0][0] == "poll" and not 0 <= as_int(last[0][3]) < SLEEP

    def until_it_sleeps(self):
        """Waits until it sleeps, and returns how often it has made each call."""
        eventually(self.sleeps, lambda: f"it doesn't sleep: {self.all()[-9:]}")
        return dict(collections.Counter(it[0] for it in self.all()))

    def forget(self):
        """Looks at later calls alone."""
        self.begin += len(self.all())


def as_int(word):
    """Returns an argument that is an `int`."""
    return ctypes.c_int(int(word) & 0xFFFFFFFF).value


@contextlib.contextmanager
def calls_of(pid, place=0):
    """Looks at a process, whose calls are those from its next ones on, and kills it at this place,
    if there is one. Others than root may not, and the test is skipped."""
    if os.geteuid() != 0:
        pytest.skip("the system calls of another process: root alone may look at them")
    with tempfile.NamedTemporaryFile("w") as file:
        words = [sys.executable, __file__, str(pid), str(place)]
        with subprocess.Popen(words, stdout=file) as tracer:
            try:
                seen = Calls(file.name)
                eventually(lambda: seen.all() or tracer.poll() == 0, "it isn't looked at")
                seen.forget()
                yield seen
            finally:
                tracer.terminate()


if __name__ == "__main__":
    look(*map(int, sys.argv[1:]))
