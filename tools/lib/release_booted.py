"""A Debian that is booted in a container (systemd-nspawn), with its own service manager, in which
commands are run."""

import os
import shutil
import signal
import subprocess
import time

from linux_kit import ROOT, Fault

# Seconds of a command, of a boot, and in which what is told to end undoes what it has begun.
LIMIT, BOOT_LIMIT, END_LIMIT = 900, 180, 60

# Where the container sees the repository and what is released; other folders of its own are its
# root's.
SOURCE, RELEASED = "/srv/source", "/srv/released"
ENVIRONMENT = {
    "PATH": "/usr/local/bin:/usr/sbin:/usr/bin:/sbin:/bin",
    "HOME": "/root",
    "LC_ALL": "C.UTF-8",
    "DEBIAN_FRONTEND": "noninteractive",
    "TERM": "xterm",
}


def end(process):
    """Has a process that hangs end, and all that it has started: in order, so that nothing stays
    mounted, or at once."""
    for number in (signal.SIGTERM, signal.SIGKILL):
        os.killpg(process.pid, number)
        try:
            process.communicate(timeout=END_LIMIT)
            return
        except subprocess.TimeoutExpired:
            continue


def ran(words, what, limit=LIMIT, **options):
    """Runs a command within a time limit, and returns what it printed."""
    try:
        process = subprocess.Popen(
            words,
            stdout=subprocess.PIPE,
            stderr=subprocess.PIPE,
            text=True,
            start_new_session=True,
            **options,
        )
    except FileNotFoundError as missing:
        raise Fault(f"{what}: {words[0]} isn't there") from missing
    try:
        printed, said = process.communicate(timeout=limit)
    except subprocess.TimeoutExpired as slow:
        end(process)
        raise Fault(f"{what}: it hangs, after {limit} s") from slow
    if process.returncode != 0:
        lines = [it for it in (said + printed).splitlines() if it.strip()]
        raise Fault(f"{what}: status {process.returncode}: {' | '.join(lines[-4:])[:600]}")
    return printed


class Booted:
    """A Debian that runs, from its root; it sees other folders by the names that they have
    there."""

    def __init__(self, root, released, others=()):
        if not shutil.which("systemd-nspawn"):
            raise Fault("systemd-nspawn isn't there: apt-get install systemd-container")
        self.root, self.leader = root, None
        folders = [
            f"--bind-ro={here}:{there}"
            for here, there in ((ROOT, SOURCE), (released, RELEASED), *others)
        ]
        words = [
            "systemd-nspawn",
            "--quiet",
            "--register=no",
            "--keep-unit",
            "--resolv-conf=copy-host",
            *folders,
            "-D",
            root,
            "--boot",
            "--console=pipe",
        ]
        environment = {**os.environ, "SYSTEMD_NSPAWN_UNIFIED_HIERARCHY": "1"}
        self.container = subprocess.Popen(
            words,
            stdin=subprocess.DEVNULL,
            stdout=subprocess.DEVNULL,
            stderr=subprocess.DEVNULL,
            env=environment,
        )

    def __enter__(self):
        end = time.monotonic() + BOOT_LIMIT
        while not self.is_ready():
            if self.container.poll() is not None or time.monotonic() > end:
                self.__exit__()
                raise Fault(
                    f"{self.root} doesn't boot: systemd-nspawn -D {self.root} --boot says why"
                )
            time.sleep(0.5)
        return self

    def __exit__(self, *_):
        self.container.send_signal(signal.SIGTERM)
        try:
            self.container.wait(60)
        except subprocess.TimeoutExpired:
            self.container.kill()
            self.container.wait()

    def is_ready(self):
        """Whether all that the boot starts has started."""
        self.leader = self.leader or self.first_process()
        if not self.leader:
            return False
        said = subprocess.run(
            [*self.entered(), "systemctl", "is-system-running"],
            capture_output=True,
            text=True,
            env=ENVIRONMENT,
            timeout=60,
        )
        return said.stdout.strip() in ("running", "degraded")

    def first_process(self):
        """Returns the container's process 1 by its number here, once it is there."""
        todo = [self.container.pid]
        for number in todo:
            try:
                with open(f"/proc/{number}/status", encoding="ascii") as file:
                    numbers = next(it for it in file if it.startswith("NSpid:")).split()
                if numbers[-1] == "1" and len(numbers) > 2:
                    return number
                with open(f"/proc/{number}/task/{number}/children", encoding="ascii") as file:
                    todo += map(int, file.read().split())
            except OSError:
                continue
        return None

    def entered(self):
        """Returns the words that run a command there."""
        return [
            "nsenter",
            "--target",
            str(self.leader),
            "--mount",
            "--uts",
            "--ipc",
            "--pid",
            "--root",
            "--wd",
        ]

    def run(self, words, what):
        """Runs shell words there, and returns what they printed."""
        return ran([*self.entered(), "/bin/bash", "-ec", words], what, env=ENVIRONMENT)
