"""A Dask scheduler and its workers: as processes of this machine, or each as if on a machine of its
own, in a network namespace that a bridge ties to the others."""

import contextlib
import os
import shutil
import signal
import socket
import subprocess
import time

from planner import CLIENT
from waiting import PATIENCE, patience_from_now

PORT, NAMESPACES = 8786, "/run/netns"

# The addresses of the namespaces, as other machines have them.
NETWORK = "10.213.77"


def ip(*words):
    """Runs ip(8)."""
    subprocess.run(["ip", *words], check=True, capture_output=True, text=True, timeout=PATIENCE)


def read(path):
    """Returns a file's text."""
    with open(path, encoding="utf-8") as file:
        return file.read()


def answers(address, inside=()):
    """Returns whether somebody answers at an address."""
    program = f"import socket; socket.create_connection({address!r}, 1)"
    return (
        subprocess.run(
            [*inside, "/usr/bin/python3", "-c", program], capture_output=True, timeout=PATIENCE
        ).returncode
        == 0
    )


class Machines:
    """Namespaces by their numbers, and what runs in them."""

    def __init__(self, folder, tag):
        self.folder, self.tag, self.stack, self.workers = (
            str(folder),
            tag,
            contextlib.ExitStack(),
            [],
        )
        self.schedulers, self.started = [], 0

    def __enter__(self):
        return self

    def __exit__(self, *_):
        self.stack.close()

    def name(self, number):
        """Returns the name of a namespace."""
        return f"{self.tag}-{number}"

    def inside(self, number):
        """Returns the words before a command that runs there."""
        return ("ip", "netns", "exec", self.name(number))

    def address(self, number):
        """Returns its address."""
        return f"{NETWORK}.{number + 1}"

    def tie(self, count):
        """Makes this number of namespaces, and a bridge in the first one of them."""
        if not os.path.ismount(NAMESPACES):
            # The first namespace mounts their folder, and the last one leaves it mounted.
            self.stack.callback(subprocess.run, ["umount", NAMESPACES])
        for number in range(count):
            ip("netns", "add", self.name(number))
            self.stack.callback(ip, "netns", "del", self.name(number))
            ip("-n", self.name(number), "link", "set", "lo", "up")
        ip("-n", self.name(0), "link", "add", "bridge", "type", "bridge")
        ip("-n", self.name(0), "addr", "add", f"{self.address(0)}/24", "dev", "bridge")
        ip("-n", self.name(0), "link", "set", "bridge", "up")
        for number in range(1, count):
            ip(
                "link",
                "add",
                f"port{number}",
                "netns",
                self.name(0),
                "type",
                "veth",
                "peer",
                "name",
                "wire",
                "netns",
                self.name(number),
            )
            ip("-n", self.name(0), "link", "set", f"port{number}", "master", "bridge", "up")
            ip("-n", self.name(number), "addr", "add", f"{self.address(number)}/24", "dev", "wire")
            ip("-n", self.name(number), "link", "set", "wire", "up")

    def start(self, inside, *words, client=CLIENT):
        """Starts a program, which ends with the test."""
        path = os.path.join(self.folder, f"log-{self.started}")
        log = self.stack.enter_context(open(path, "wb"))
        self.started += 1
        environment = {**os.environ, "PYTHONPATH": client, "PYTHONDONTWRITEBYTECODE": "1"}
        it = subprocess.Popen(
            [*inside, *words],
            stdout=log,
            stderr=log,
            cwd=self.folder,
            env=environment,
            start_new_session=True,
        )
        self.stack.callback(end, it)
        return it, path

    def scheduler(self, host, port=PORT, inside=()):
        """Starts a scheduler; returns its address."""
        program, _ = self.start(
            inside, "dask", "scheduler", "--host", host, "--port", str(port), "--no-dashboard"
        )
        self.schedulers.append(program)
        eventually(lambda: answers((host, port), inside))
        return f"tcp://{host}:{port}"

    def work(self, address, insides, client=CLIENT):
        """Starts workers of one thread each, and waits until the scheduler has them."""
        words = (
            "--nthreads",
            "1",
            "--no-nanny",
            "--no-dashboard",
            "--memory-limit",
            "0",
            "--local-directory",
            self.folder,
        )
        started = [
            self.start(it, "dask", "worker", address, *words, client=client) for it in insides
        ]
        self.workers += [it for it, _ in started]
        eventually(lambda: all("Registered to" in read(log) for _, log in started))


def eventually(condition):
    """Waits until a condition holds."""
    deadline = patience_from_now()
    while not condition():
        assert time.monotonic() < deadline
        time.sleep(0.2)


def end(process):
    """Ends a program and what it has started."""
    if process.poll() is None:
        os.killpg(process.pid, signal.SIGKILL)
    process.wait()


def free_port():
    """Returns a port that nobody has."""
    with socket.socket() as it:
        it.bind(("localhost", 0))
        return it.getsockname()[1]


def lacks():
    """Returns what is missing for namespaces; nothing where they can be made."""
    if not shutil.which("ip"):
        return "ip isn't there: apt-get install iproute2"
    return "" if os.geteuid() == 0 else "namespaces want root"
