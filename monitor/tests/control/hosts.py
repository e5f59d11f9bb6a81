"""A host for tests: its process, guests that answer it, and the client program beside it."""

import json
import os
import select
import signal
import socket
import struct
import subprocess
import threading

from bigvasta.connection import Connection
from linux_guest import Lines
from vhost_client import BUFFERS, PAGE, STATISTICS, Client
from waiting import PATIENCE

# The tag of free memory (VIRTIO 1.1, 5.5.6.3).
FREE_MEMORY = 4


def values(text):
    """Returns the values of metrics by their names with labels."""
    lines = [it for it in text.splitlines() if it and not it.startswith("#")]
    return {name: float(value) for name, value in (it.rsplit(" ", 1) for it in lines)}


def say(**fields):
    """Returns a request as a line."""
    return json.dumps({"version": 1, **fields}).encode()


class Raw:
    """A client of a control socket that sends whatever bytes it likes."""

    def __init__(self, path):
        self.socket = socket.socket(socket.AF_UNIX)
        self.socket.settimeout(PATIENCE)
        self.socket.connect(path)
        self.lines = self.socket.makefile("rb")

    def answer(self, line):
        """Sends a line; returns its answer."""
        self.socket.sendall(line + b"\n")
        return json.loads(self.lines.readline())

    def close(self):
        """Goes."""
        self.lines.close(), self.socket.close()


class Host:
    """A host's process, in a folder of its own."""

    started = []

    def __init__(self, program, folder, *options, environment=None, files=()):
        self.folder, self.control, self.shown = (
            str(folder),
            f"{folder}/.control",
            f"{folder}/.status",
        )
        self.log = open(f"{folder}/log", "ab+")
        self.process = subprocess.Popen(
            [program, *options, "--step", "0"],
            stdin=subprocess.PIPE,
            stdout=subprocess.PIPE,
            stderr=self.log,
            pass_fds=files,
            env={**os.environ, **(environment or {})},
        )
        self.lines = Lines(self.process.stdout, "the host")
        self.started.append(self.process)

    def ask(self, request, **fields):
        """Asks it over a connection of its own."""
        with Connection(self.control) as it:
            return it.ask(request, **fields)

    def status(self):
        """Returns what it says of itself."""
        return self.ask("status")["host"]

    def guest(self, name):
        """Returns what it says of a guest."""
        return self.ask("guest", name=name)["guest"]

    def said(self):
        """Returns the lines that it said on standard error."""
        self.log.seek(0)
        return self.log.read().decode().splitlines()

    def end(self, number=signal.SIGTERM):
        """Ends it; returns its status."""
        if self.process.poll() is None:
            self.process.send_signal(number)
        try:
            return self.process.wait(PATIENCE)
        finally:
            self.process.kill()
            self.process.wait()
            self.process.stdin.close(), self.process.stdout.close()


class Answering(threading.Thread):
    """A guest of 128 pages, whose driver answers each question by how many pages it calls free."""

    def __init__(self, host, name, free=60):
        super().__init__(daemon=True)
        self.free, self.ended = free, threading.Event()
        self.client = Client(f"{host.folder}/{name}", lambda: "\n".join(host.said()[-2:]))
        self.client.start()
        self.tell()
        self.start()

    def tell(self):
        """Posts statistics."""
        data = struct.pack("<HQ", FREE_MEMORY, self.free * PAGE)
        self.client.write(BUFFERS + PAGE, data)
        self.client.describe(STATISTICS, 0, BUFFERS + PAGE, len(data))
        self.client.publish(STATISTICS, 0)
        self.client.kick(STATISTICS)

    def run(self):
        """Answers until it goes, or the host closes its socket."""
        try:
            while not self.ended.wait(0.02):
                while select.select([self.client.own], [], [], 0)[0]:
                    # Another process that takes over may tell of what was used long ago.
                    if self.client.told(PATIENCE) == STATISTICS and self.client.is_all_used(
                        STATISTICS
                    ):
                        self.tell()
        except (OSError, TypeError, AssertionError):
            pass

    def stop(self):
        """Answers no longer."""
        self.ended.set()
        self.join()

    def leave(self):
        """Goes."""
        self.stop()
        self.client.leave()
