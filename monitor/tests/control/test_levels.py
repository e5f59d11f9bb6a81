"""Levels of what a host says to the journal."""

import os
import signal
import socket
import subprocess

import pytest
from hosts import Host
from waiting import PATIENCE, eventually, patience_from_now

# A level, and how the lines begin that are said of a wrong file, of a right one, and of a guest
# that breaks a rule and goes.
LEVELS = (
    ("error", ["<3>", "<3>"]),
    ("warning", ["<3>", "<3>"]),
    ("notice", ["<3>", "<3>", "<5>"]),
    ("info", ["<3>", "<3>", "<6>", "<6>", "<5>", "<6>"]),
)


def begin(program, folder, text, *options):
    """Begins a host whose standard error is the journal's, by this configuration and options."""
    path = folder / "log"
    path.write_bytes(b"")
    (folder / "host.conf").write_text(text)
    its = os.stat(path)
    stream = {"JOURNAL_STREAM": f"{its.st_dev}:{its.st_ino}"}
    host = Host(program, folder, "--config", f"{folder}/host.conf", *options, environment=stream)
    host.lines.next(patience_from_now())
    return host


def break_a_rule(host):
    """A client of guest a breaks a rule, and its service ends."""
    with socket.socket(socket.AF_UNIX) as client:
        client.connect(f"{host.folder}/a")
        client.sendall(b"\xff" * 12)
        assert client.recv(1) == b""
    eventually(lambda: host.guest("a")["state"] == "absent")


@pytest.mark.parametrize("by_file", (True, False), ids=("file", "option"))
@pytest.mark.parametrize("level, begins", LEVELS)
def test_levels_in_the_journal(program, folder, level, begins, by_file):
    file = folder / "host.conf"
    key, words = (f"level = {level}\n", ()) if by_file else ("", ("--log-level", level))
    good = f"[host]\nfolder = {folder}\nbudget = 480M\n[log]\n{key}[guest a]\n"
    host = begin(program, folder, good, *words)
    file.write_text(good.replace("480M", "480"))
    host.process.send_signal(signal.SIGHUP)
    eventually(lambda: len(host.said()) == 2)
    file.write_text(good.replace("480M", "400M"))
    host.process.send_signal(signal.SIGHUP)
    eventually(lambda: host.status()["budget"] == 400 << 20)
    break_a_rule(host)
    assert host.end() == 0
    assert [it[:3] for it in host.said()] == begins, host.said()


def test_why_a_host_does_not_start_is_said_whatever_is_said_of_guests(program, folder):
    words = [
        program,
        str(folder),
        "--budget",
        "8",
        "--lines",
        "0",
        "--status",
        f"{folder}/.control",
    ]
    ran = subprocess.run(words, input=b"quit\n", capture_output=True, timeout=PATIENCE)
    assert ran.returncode == 2 and b"[control] and [status] have the same socket" in ran.stderr, ran


def test_a_line_in_place_of_others_has_the_level_of_the_first(program, folder):
    text = f"[host]\nfolder = {folder}\nbudget = 480M\n[log]\nlines = 0\n[guest a]\n"
    host = begin(program, folder, text)
    break_a_rule(host)
    assert host.end() == 0
    assert "<5>a: further lines of this second are left out" in host.said(), host.said()
