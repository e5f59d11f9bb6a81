"""What a guest's process writes into its memfd for its keeper, which believes none of it."""

import ctypes
import os
import signal
import socket
import struct
import time

import pytest
from bigvasta.connection import Connection
from installed import OLDER, install, older_program, version
from kept import HEAD, Kept, layout
from played import FIGURES
from tenants import eventually, process_of, status_of, stop
from vhost_client import GET_CONFIG, PAGE, Client

WIDE = ("--floor", "0", "--period", "100", "--step", "0")

# The number of the memfd in the keeper, and where there are in it: two bytes that say whether the
# installed program is to go on; and, by how many bytes had been read, from where they are counted.
KEPT_FILE, RENEWS, COUNTED_FROM = 190, 16, 32

# The bytes of a client after which another process continues; how many bytes a question for the
# configuration has; the option of a socket that counts them (socket(7)), and pidfd_getfd(2).
MOST_COUNTED, QUESTION, SO_PEEK_OFF, PIDFD_GETFD = 1 << 29, HEAD + 28, 42, 438

# Seconds in which a process would end.
MOMENT = 0.5

# The most regions of a guest's memory, as GET_MAX_MEM_SLOTS answers, and words of the set of its
# pages, which are below 64 GiB; more than each.
MOST, HUGE = {"region_count": 32, "set_words": (64 << 30) // PAGE // 64}, (1 << 32) - 1


def configuration(client):
    """Returns the four words of the configuration."""
    return struct.unpack(
        "<IIII", client.send(GET_CONFIG, struct.pack("<III", 0, 16, 0) + bytes(16))[12:]
    )


def test_a_keeper_takes_any_byte_for_whether(lend, checked):
    """A process that was taken over writes what is no truth value, and has the count of its
    client's bytes be used up: its guest alone ends."""
    lender = lend(64, *WIDE, program=checked)
    client = Client(lender.add("a"), lambda: lender.said()[-4:])
    client.start()
    process = process_of(lender, "a")
    with open(f"/proc/{status_of(process)['PPid']}/fd/{KEPT_FILE}", "r+b", buffering=0) as kept:
        os.pwrite(kept.fileno(), b"\xff\xfe", RENEWS)
        os.pwrite(kept.fileno(), struct.pack("<Q", 1 << 40), COUNTED_FROM)
    assert configuration(client)[0] == 0
    lender.become("a", here=0)
    assert lender.said()[-2:] == ["a: its process has ended with status 1", "gone a"] and not [
        it for it in lender.said() if "runtime error" in it
    ]
    client.leave()


def test_the_next_process_has_no_more_statistics_than_there_may_be(lend):
    """Its client, which reads them, and its lender find no bytes after them."""
    lender = lend(64, *WIDE)
    client = Client(lender.add("a"), lambda: lender.said()[-4:])
    client.start()
    kept = Kept(process_of(lender, "a"))
    stop(kept.process)
    _, at, size, each, _ = layout()["figure_count"]
    with open(f"/proc/{kept.keeper}/fd/{KEPT_FILE}", "r+b", buffering=0) as file:
        os.pwrite(file.fileno(), b"\xff" * size, at + each * (kept["kept.counts"] & 1))
    kept.kill(lender)
    assert kept["figure_count"] == FIGURES
    kept.leave(lender)
    client.leave()


@pytest.mark.parametrize(
    "field, number", ((f, n) for f, most in MOST.items() for n in (most + 1, HUGE))
)
def test_the_next_process_has_no_more_memory_than_there_may_be(lend, checked, field, number):
    """It reads no region after the last one that there is room for, and no word of the set of pages
    after it: its guest alone ends, and why is said."""
    lender = lend(64, *WIDE, program=checked)
    client = Client(lender.add("a"), lambda: lender.said()[-4:])
    client.start()
    kept = Kept(process_of(lender, "a"))
    stop(kept.process)
    _, at, size, each, _ = layout()[field]
    with open(f"/proc/{kept.keeper}/fd/{KEPT_FILE}", "r+b", buffering=0) as file:
        for state in range(2):
            os.pwrite(file.fileno(), number.to_bytes(size, "little"), at + each * state)
    os.kill(kept.process, signal.SIGKILL)
    lender.become("a", here=0)
    lender.tells("refused a: the guest's memory can't be mapped by another process")
    assert not [it for it in lender.said() if "runtime error" in it]
    os.close(kept.file), client.leave()


def have_been_counted(process, kept, count):
    """Has a process, which rests, have counted this many bytes of its client."""
    pidfd = os.pidfd_open(process)
    file = ctypes.CDLL(None).syscall(PIDFD_GETFD, pidfd, kept["socket"], 0)
    assert file >= 0, "the socket isn't reached"
    more = count - (kept["bytes"] - kept["kept.counted_from"])
    with socket.socket(fileno=file) as client:
        left = client.getsockopt(socket.SOL_SOCKET, SO_PEEK_OFF)
        client.setsockopt(socket.SOL_SOCKET, SO_PEEK_OFF, left - more)
    counted_from = (kept["kept.counted_from"] - more) % (1 << 64)
    with open(f"/proc/{kept.keeper}/fd/{KEPT_FILE}", "r+b", buffering=0) as file:
        os.pwrite(file.fileno(), struct.pack("<Q", counted_from), COUNTED_FROM)
    os.close(pidfd)


def test_another_process_goes_on_before_the_count_of_bytes_ends(lend, checked):
    """So a client may send any number of them; its guest sees nothing of it."""
    lender = lend(64, *WIDE, program=checked)
    client = Client(lender.add("a"), lambda: lender.said()[-4:])
    client.start()
    process = process_of(lender, "a")
    kept = Kept(process)
    have_been_counted(process, kept, MOST_COUNTED - QUESTION)
    assert configuration(client)[0] == 0
    time.sleep(MOMENT)
    assert kept.next_process() == process
    assert configuration(client)[0] == 0
    eventually(lambda: kept.next_process() not in (process, None))
    assert configuration(client)[0] == 0
    lender.become("a", here=1, ready=1)
    assert not [it for it in lender.said() if it.startswith("a: ")]
    client.leave(), os.close(kept.file)


class Installed:
    """A guest of the older programs, in whose place others are installed."""

    def __init__(self, lend, folder):
        self.folder = str(folder)
        self.lender = lend(64, *WIDE, program=install(older_program(), self.folder))
        self.client = Client(self.lender.add("a"), lambda: self.lender.said()[-4:])
        self.client.start()

    def version(self):
        """Returns the version of the process that serves it."""
        self.lender.become("a", here=1, ready=1)
        return self.lender.status()["guests"][0]["version"]

    def break_program(self):
        """Installs a program of a guest's process that doesn't continue with what is kept."""
        path = f"{self.folder}/vhost_user_balloon"
        os.unlink(path)
        with open(path, "w", encoding="ascii") as script:
            script.write("#!/bin/sh\n[ $1 = --version ]\n")
        os.chmod(path, 0o755)

    def is_next(self, process):
        """Waits until another process has continued with the client."""
        eventually(lambda: process_of(self.lender, "a") not in (0, process))
        assert configuration(self.client)[0] == 0

    def renew(self):
        """Has it be asked to become what is installed; returns the version of what serves then."""
        process = process_of(self.lender, "a")
        with Connection(f"{self.lender.folder}/.control") as control:
            control.ask("renew", name="a")
        self.is_next(process)
        return self.version()

    def end_count(self):
        """Has the count of its client's bytes end; returns the version of what serves then."""
        process = process_of(self.lender, "a")
        kept = Kept(process)
        have_been_counted(process, kept, MOST_COUNTED)
        configuration(self.client)
        self.is_next(process)
        os.close(kept.file)
        return self.version()

    def stays(self):
        """Returns how often it was said that the program that is installed can't continue."""
        self.lender.hear()
        return sum(it.startswith("a: upgrade refused: ") for it in self.lender.said())


@pytest.fixture
def installed(lend, tmp_path):
    """Returns such a guest."""
    its = Installed(lend, tmp_path)
    yield its
    its.client.leave()


def test_who_was_asked_alone_becomes_what_is_installed(installed, plain):
    """Not a process that continues as the count of bytes ends, before that one or after it."""
    install(plain, installed.folder)
    assert installed.end_count() == OLDER
    assert installed.renew() == version()
    install(older_program(), installed.folder)
    assert installed.end_count() == version()
    assert installed.stays() == 0


def test_who_could_not_become_what_is_installed_does_so_once_it_is_asked_again(installed, plain):
    """What can't continue is named each time that it is asked for, and not by later processes."""
    installed.break_program()
    assert (installed.renew(), installed.stays()) == (OLDER, 1)
    install(plain, installed.folder)
    assert (installed.end_count(), installed.stays()) == (OLDER, 1)
    installed.break_program()
    assert (installed.renew(), installed.stays()) == (OLDER, 2)
    install(plain, installed.folder)
    assert (installed.renew(), installed.stays()) == (version(), 2)
    assert (installed.end_count(), installed.stays()) == (version(), 2)
