"""A host as a service: what its service manager is told, by a small one that speaks the protocol of
sd_notify(3) and keeps files; its units."""

import array
import os
import re
import shutil
import signal
import socket
import subprocess
import sys
import time

import pytest
from bigvasta.connection import Connection
from hosts import Answering, Host
from installed import bigvasta
from linux_kit import ROOT
from waiting import PATIENCE, eventually, patience_from_now

SYSTEMD = os.path.join(ROOT, "packaging", "systemd")
UNITS = ("bigvasta-host.service", "bigvasta-metrics.service")

# What a service is started by: files are handed over from number 3 on, with its own number, as
# sd_listen_fds(3) wants it.
STARTER = """import os, sys
files = [int(it) for it in sys.argv[1].split()]
for number, file in enumerate([os.dup2(it, 100 + it) for it in files]):
    os.dup2(file, 3 + number)
os.environ["LISTEN_PID"] = str(os.getpid())
os.execv(sys.argv[2], sys.argv[2:])
"""

# Seconds between two words to a service manager without a watchdog that wants more.
STATUS_EVERY = 5


def same(one, other):
    """Whether two files are the same socket."""
    return os.fstat(one).st_ino == os.fstat(other).st_ino


class Manager:
    """A service manager for one service."""

    def __init__(self, folder):
        self.folder, self.kept = folder, {}
        self.socket = socket.socket(socket.AF_UNIX, socket.SOCK_DGRAM)
        self.socket.bind(f"{folder}/.notify")
        self.socket.settimeout(PATIENCE)

    def environment(self, watchdog=0):
        """Returns what it starts a service with."""
        return {"NOTIFY_SOCKET": f"{self.folder}/.notify"} | (
            {"WATCHDOG_USEC": str(watchdog)} if watchdog else {}
        )

    def word(self):
        """Returns the next thing that it is told, by names; a file that comes with it is kept."""
        data, control, *_ = self.socket.recvmsg(4096, socket.CMSG_SPACE(16))
        told = dict(line.split("=", 1) for line in data.decode().splitlines())
        for _, _, its in control:
            files = array.array("i")
            files.frombytes(its)
            assert told.get("FDSTORE") == "1" and len(files) == 1
            assert told["FDNAME"] not in self.kept or same(self.kept[told["FDNAME"]], files[0])
            self.kept[told["FDNAME"]] = files[0]
        if "FDSTOREREMOVE" in told:
            os.close(self.kept.pop(told["FDNAME"]))
        return told

    def until(self, name):
        """Returns the next word of this name."""
        while True:
            told = self.word()
            if name in told:
                return told

    def start(self, program, folder, *words, watchdog=0):
        """Starts a host, with the files that were kept."""
        kept = (
            {"LISTEN_FDS": str(len(self.kept)), "LISTEN_FDNAMES": ":".join(self.kept)}
            if self.kept
            else {}
        )
        environment = self.environment(watchdog) | kept
        return Started(
            program, folder, *words, files=list(self.kept.values()), environment=environment
        )

    def close(self):
        """Lets go of all."""
        self.socket.close()
        for it in self.kept.values():
            os.close(it)


class Started(Host):
    """A host that a service manager starts."""

    def __init__(self, program, folder, *words, files, environment):
        numbers = " ".join(map(str, files))
        super().__init__(
            sys.executable,
            folder,
            "-c",
            STARTER,
            numbers,
            program,
            *words,
            environment=environment,
            files=files,
        )


@pytest.fixture
def manager(folder):
    it = Manager(folder)
    yield it
    it.close()


def test_what_a_manager_is_told(program, folder, manager):
    (folder / "host.conf").write_text(f"[host]\nfolder = {folder}\nbudget = 480M\n")
    host = manager.start(program, folder, "--config", f"{folder}/host.conf", watchdog=400000)
    # Its sockets are kept, and are there once it is ready.
    assert [manager.word() for _ in range(2)] == [
        {"FDSTORE": "1", "FDNAME": it} for it in ("control", "status")
    ]
    assert manager.word() == {"READY": "1"}
    assert host.status()["budget"] == 480 << 20
    # A word for the watchdog each half of its time, with a line about what there is.
    begin = time.monotonic()
    words = [manager.word() for _ in range(5)]
    assert all(
        it == {"WATCHDOG": "1", "STATUS": "0 guests, 0 of 480 MiB held, 0 wait"} for it in words
    ), words
    assert 0.6 < time.monotonic() - begin < 2
    (folder / "host.conf").write_text(f"[host]\nfolder = {folder}\nbudget = 400M\n")
    begin = time.monotonic()
    host.process.send_signal(signal.SIGHUP)
    told = manager.until("RELOADING")
    assert int(begin * 1e6) <= int(told["MONOTONIC_USEC"]) <= time.monotonic() * 1e6
    assert manager.until("READY") == {"READY": "1"}
    assert host.status()["budget"] == 400 << 20
    host.process.send_signal(signal.SIGTERM)
    assert manager.until("STOPPING") == {"STOPPING": "1"}
    assert host.end() == 0


@pytest.mark.parametrize("watchdog", (0, 4 * STATUS_EVERY))
def test_a_manager_is_told_what_there_is_once_in_a_while(program, folder, manager, watchdog):
    """Also where it has no watchdog, or one that waits longer."""
    words = (str(folder), "--budget", "480M")
    host = manager.start(program, folder, *words, watchdog=int(watchdog * 1e6))
    manager.until("STATUS")
    begin = time.monotonic()
    assert manager.until("STATUS")["STATUS"] == "0 guests, 0 of 480 MiB held, 0 wait"
    assert time.monotonic() - begin > STATUS_EVERY / 2
    assert host.end() == 0


def test_a_client_that_comes_while_no_host_is_there(program, folder, manager):
    host = manager.start(program, folder, str(folder), "--budget", "480")
    manager.until("READY")
    assert host.end() == 0
    assert os.path.exists(host.control), "the socket that is kept has its name"
    waiting = Connection(host.control)
    waiting.socket.sendall(b'{"version": 1, "request": "budget"}\n')
    host = manager.start(program, folder, str(folder), "--budget", "300")
    assert waiting.receive({})["budget"] == 300 << 20
    assert host.status()["control"]["accepted"] == 2
    waiting.close()
    assert host.end() == 0


def test_a_guest_lives_on_while_the_host_starts_anew(program, folder, manager):
    host = manager.start(program, folder, str(folder), "--budget", "480", "--leave")
    manager.until("READY")
    host.ask("add", name="a", priority=3)
    guest = Answering(host, "a")
    process = eventually(lambda: host.guest("a")["answers"] and host.guest("a")["process"])
    assert host.end() == 0
    host = manager.start(program, folder, str(folder), "--budget", "480", "--leave")
    manager.until("READY")
    its = eventually(lambda: host.guest("a")["answers"] and host.guest("a"))
    assert (its["process"], its["state"], its["memory"], its["terms"]["priority"]) == (
        process,
        "ready",
        128 * 4096,
        3,
    )
    guest.leave()
    eventually(lambda: host.guest("a")["state"] == "absent")
    assert host.end() == 0


def test_without_a_watchdog(program, folder, manager):
    host = manager.start(program, folder, str(folder), "--budget", "480")
    manager.until("READY")
    assert "STATUS" in manager.word()
    manager.socket.settimeout(1)
    with pytest.raises(TimeoutError):
        manager.word()
    assert host.end() == 0


def test_without_a_manager(program, folder):
    host = Host(
        program,
        folder,
        str(folder),
        "--budget",
        "480",
        environment={"NOTIFY_SOCKET": f"{folder}/none"},
    )
    host.lines.next(patience_from_now())
    assert host.end() == 0


def test_a_host_without_a_manager_waits_for_what_is_due(host):
    """Ten looks for events a second, one at the guests: it takes no turn for a manager that isn't
    there."""

    def turns():
        return sum(host.status()["measures"]["turns"]["counts"])

    before, begin = turns(), time.monotonic()
    time.sleep(2)
    after, seconds = turns(), time.monotonic() - begin
    assert after - before < 30 * seconds, (after - before, seconds)


def test_lines_elsewhere_have_no_level(program, folder):
    (folder / "host.conf").write_text("[host]\nbudget = 5\n")
    host = Host(
        program, folder, "--config", f"{folder}/host.conf", environment={"JOURNAL_STREAM": "1:1"}
    )
    assert host.process.wait(PATIENCE) == 2
    assert host.said()[0].startswith(f"{folder}/host.conf: line 2: budget: ")
    host.end()


@pytest.mark.parametrize("unit", UNITS)
def test_units(unit, tmp_path):
    if not shutil.which("systemd-analyze"):
        pytest.skip("systemd-analyze isn't there: apt-get install systemd")
    with open(f"{SYSTEMD}/{unit}", encoding="utf-8") as file:
        text = file.read()
    # The programs aren't installed here.
    (tmp_path / unit).write_text(re.sub(r"(?m)^Exec(Start|Reload)=\S+", r"Exec\1=/bin/true", text))
    ran = subprocess.run(
        ["systemd-analyze", "verify", "--man=no", str(tmp_path / unit)],
        capture_output=True,
        text=True,
        timeout=PATIENCE,
    )
    assert (ran.returncode, [it for it in ran.stderr.splitlines() if unit in it]) == (0, []), ran
    words = [
        "systemd-analyze",
        "security",
        "--offline=yes",
        "--no-pager",
        "--threshold=20",
        f"{SYSTEMD}/{unit}",
    ]
    ran = subprocess.run(words, capture_output=True, text=True, timeout=PATIENCE)
    exposure = float(re.search(r"Overall exposure level for \S+: ([\d.]+)", ran.stdout)[1])
    assert ran.returncode == 0 and exposure <= 2.0, exposure


def test_the_user_and_the_folder_of_sockets(tmp_path):
    if not shutil.which("systemd-sysusers") or os.geteuid():
        pytest.skip("systemd-sysusers isn't there, or this isn't root")
    (tmp_path / "etc").mkdir()
    for program, file in (
        ("systemd-sysusers", "sysusers.d/bigvasta.conf"),
        ("systemd-tmpfiles", "tmpfiles.d/bigvasta.conf"),
    ):
        words = [
            program,
            f"--root={tmp_path}",
            *(["--create"] if program.endswith("tmpfiles") else []),
            os.path.join(os.path.dirname(SYSTEMD), file),
        ]
        ran = subprocess.run(words, capture_output=True, text=True, timeout=PATIENCE)
        assert ran.returncode == 0, ran
    (user,) = (
        it.split(":")
        for it in (tmp_path / "etc/passwd").read_text().splitlines()
        if it.startswith("bigvasta:")
    )
    groups = {
        it.split(":")[0]: it.split(":")[2:]
        for it in (tmp_path / "etc/group").read_text().splitlines()
    }
    assert user[6] == "/usr/sbin/nologin" and groups["bigvasta-status"][1:] == [""]
    for name, mode, group in ("bigvasta", "0o751", "bigvasta"), (
        "bigvasta-status",
        "0o2750",
        "bigvasta-status",
    ):
        its = os.stat(tmp_path / "run" / name)
        assert (oct(its.st_mode & 0o7777), str(its.st_uid), str(its.st_gid)) == (
            mode,
            user[2],
            groups[group][0],
        ), name


def started_by(unit):
    """Returns the words by which a unit starts its program."""
    with open(f"{SYSTEMD}/{unit}", encoding="utf-8") as file:
        return re.search(r"(?m)^ExecStart=(.*)$", file.read())[1]


def test_what_the_units_start():
    assert [started_by(it) for it in UNITS] == [
        "/usr/bin/vhost_user_host --leave --control-mode 0600 --status /run/bigvasta-status/socket "
        "--config /etc/bigvasta/host.conf --state /var/lib/bigvasta",
        "/usr/bin/bigvasta metrics --listen localhost:9750",
    ]


def test_the_service_s_control_socket_is_for_no_group(program, folder):
    """Also where its file says nothing of it: each VMM is a member of the host's group."""
    words = re.sub(r"/\S+/(bigvasta(-status)?)\b", str(folder), started_by(UNITS[0])).split()
    (folder / "host.conf").write_text(f"[host]\nfolder = {folder}\nbudget = 8M\n")
    host = Host(program, folder, *words[1:-2])  # but for --state, which is another folder
    assert host.lines.next(patience_from_now()) == "ready", host.said()
    assert os.stat(host.control).st_mode & 0o777 == 0o600 and host.end() == 0


def test_the_configuration_of_the_package(program, folder):
    """With a budget, the file that the package installs is right, and with each line that is a
    comment in it, too."""
    with open(f"{ROOT}/packaging/etc/host.conf", encoding="utf-8") as file:
        text = re.sub("/run/bigvasta(-status)?", str(folder), file.read())
    bare = text.replace("# budget", "budget")
    full = re.sub(r"(?m)^# (\[guest|least|most|priority)", r"\1", bare)
    for text in bare, full:
        (folder / "host.conf").write_text(text)
        host = Host(program, folder, "--config", f"{folder}/host.conf")
        assert host.lines.next(patience_from_now()) == "ready"
        assert host.status()["guests"] == ("[guest web-1]" in re.sub(r"(?m)^#.*$", "", text))
        assert bigvasta(host.control, "budget").stdout == "8192 MiB\n"
        assert host.end() == 0
