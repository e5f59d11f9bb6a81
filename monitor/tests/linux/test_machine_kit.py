"""What is said where a machine of its own can't be made, hangs or ends: in one line, in time,
without a machine."""

import os
import socket
import subprocess
import threading
import time

import debian_disk
import debian_machine
import pytest
from linux_packages import Fault, Missing


@pytest.fixture
def no_disk(tmp_path, monkeypatch):
    """A cache without a disk."""
    monkeypatch.setattr(debian_disk, "CACHE", str(tmp_path))


@pytest.mark.parametrize(
    "program, package", (("mmdebstrap", "mmdebstrap"), ("mkfs.ext4", "e2fsprogs"))
)
def test_a_program_that_makes_disks_is_missing(no_disk, tmp_path, monkeypatch, program, package):
    for other in {"mmdebstrap", "mkfs.ext4"} - {program}:
        (tmp_path / other).touch(mode=0o755)
    monkeypatch.setenv("PATH", str(tmp_path))
    with pytest.raises(Missing, match=f"^{program} isn't there: apt-get install {package}$"):
        debian_disk.demand_disk()


def test_who_is_not_root_makes_no_disk(no_disk, tmp_path, monkeypatch):
    for name in ("mmdebstrap", "mkfs.ext4"):
        (tmp_path / name).touch(mode=0o755)
    monkeypatch.setenv("PATH", str(tmp_path))
    monkeypatch.setattr(os, "geteuid", lambda: 1000)
    with pytest.raises(
        Missing, match="^the root of a Debian is made by root: run it with sudo, once$"
    ):
        debian_disk.demand_disk()


@pytest.fixture
def ends(tmp_path, monkeypatch):
    """A machine in whose place nothing runs, and the other end of its port."""
    for name, text in (("console", "a boot\nits last words\n"), ("qemu", "")):
        (tmp_path / name).write_text(text, encoding="ascii")
    it = debian_machine.Machine.__new__(debian_machine.Machine)
    it.folder, it.console, it.rest = str(tmp_path), str(tmp_path / "console"), b""
    it.port, other = socket.socketpair()
    it.port.settimeout(0.1)
    it.process = subprocess.Popen(["sleep", "60"])
    yield it, other
    it.__exit__(), other.close()


def test_a_command_that_says_nothing_hangs(ends, monkeypatch):
    monkeypatch.setattr(debian_machine, "QUIET", 0.5)
    with pytest.raises(
        Fault, match="^a command hangs: nothing for 0.5 s; the console's last line: its last words$"
    ):
        ends[0].run("true", "a command")


def test_a_command_that_never_ends_hangs(ends, monkeypatch):
    monkeypatch.setattr(debian_machine, "LIMIT", 0.5)

    def talk():
        for _ in range(10):
            time.sleep(0.1)
            ends[1].sendall(b'"more"\n')

    talking = threading.Thread(target=talk)
    talking.start()
    with pytest.raises(Fault, match=r"^a command hangs, after 0.5 s: more( \| more)+$"):
        ends[0].run("true", "a command")
    talking.join()


def test_a_machine_that_has_ended(ends):
    ends[0].process.kill(), ends[0].process.wait()
    with pytest.raises(Fault, match="^the machine has ended, at a command: its last words$"):
        ends[0].run("true", "a command")


def test_a_command_that_fails_is_told_by_its_last_lines(ends):
    ends[1].sendall(b'"one"\n"two"\n7\n')
    with pytest.raises(Fault, match=r"^a command: status 7: one \| two$"):
        ends[0].run("false", "a command")
