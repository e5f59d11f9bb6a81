"""A client with a backend of its own."""

import mmap
import os
import signal
import struct
import tempfile
import time

import linux_guest
from vhost_client import BUFFERS, PAGE, PAGES_OF_REGION, REGIONS, SIZE, VRING_KICK, Client
from waiting import PATIENCE, patience_from_now


class Served(Client):
    """A client with a backend of its own."""

    def __init__(self, program, *options, environment=None):
        self.folder, self.lines, self.program = (
            tempfile.TemporaryDirectory(prefix="test-vhost-user-"),
            [],
            program,
        )
        self.path = os.path.join(self.folder.name, "socket")
        self.backend = linux_guest.Backend(
            program, self.folder.name, [self.path, *options], environment=environment
        )
        super().__init__(self.path, self.backend.why)

    def restart(self, *options, killed=False):
        """Starts another backend in the place of the one that there was, and waits until it
        listens."""
        if killed:
            os.kill(self.backend.process.pid, signal.SIGKILL)
        self.backend.close()
        self.backend.process.stdout.close()
        self.backend = linux_guest.Backend(self.program, self.folder.name, [self.path, *options])
        self.why = self.backend.why

    def file(self, name):
        """Returns the path of a file of its own."""
        return os.path.join(self.folder.name, name)

    def close(self):
        """Goes; returns the backend's status and what it said last. `lines` is all that it said."""
        self.socket.close()
        status = self.backend.process.wait(PATIENCE)
        self.leave()
        self.backend.process.stdin.close(), self.backend.process.stdout.close()
        said = self.backend.why()
        with open(self.backend.log, encoding="latin-1") as log:
            self.lines = log.read().splitlines()
        self.folder.cleanup()
        return status, said

    def counter(self, name):
        """Returns one of the backend's counters."""
        return self.backend.counters()[name]

    def is_at_rest(self):
        """Whether the backend takes no processor's time while nobody wants anything of it."""
        return self.backend.is_at_rest()

    def open_files(self):
        """Returns how many files the backend has open."""
        return len(os.listdir(f"/proc/{self.backend.process.pid}/fd"))

    def mappings(self, of="region"):
        """Returns how many of the guest's regions the backend has mapped, or of other memfds."""
        with open(f"/proc/{self.backend.process.pid}/maps", encoding="utf-8") as maps:
            return sum(f"memfd:{of}" in it for it in maps)

    def describe_all(self, number, size):
        """Writes descriptors that stand by themselves, and entries of which each names the one of
        its place, and makes all available. No interrupt is wanted."""
        for head in range(size):
            self.describe(number, head, BUFFERS, 4)
        self.write(self.table(number) + PAGE, struct.pack(f"<HH{size}H", 1, size, *range(size)))

    def are_used(self, numbers, count):
        """Waits until `count` chains of each queue are used: whether they are, in time."""
        end = patience_from_now()
        while any(
            self.read(self.table(it) + 2 * PAGE + 2, 2) != struct.pack("<H", count)
            for it in numbers
        ):
            if time.monotonic() > end:
                return False
            time.sleep(0.01)
        return True

    def are_served(self, numbers, count):
        """Makes whole queues of `count` chains available, and kicks each once, all at a time:
        whether all are served, in time."""
        for it in numbers:
            self.describe_all(it, count)
        self.socket.sendall(
            b"".join(struct.pack("<IIIII", VRING_KICK, 1, 8, it, 0) for it in numbers)
        )
        return self.are_used(numbers, count)

    def served_by_a_kick(self, number, seconds):
        """Kicks a queue once while another process makes each chain available again as soon as it
        is used, without a kick; returns how many chains are served."""
        self.describe_all(number, SIZE)
        at = self.table(number) - REGIONS[self.region][0]
        used, available = (at + 2 * PAGE + 2) // 2, (at + PAGE + 2) // 2
        with mmap.mmap(self.files[self.region], PAGES_OF_REGION * PAGE) as memory, memoryview(
            memory
        ).cast("H") as words:
            first = words[used]
            words[available] = (first + SIZE) & 0xFFFF
            publisher = os.fork()
            if publisher == 0:
                end = time.monotonic() + seconds
                while time.monotonic() < end:
                    words[available] = (words[used] + SIZE) & 0xFFFF
                os._exit(0)
            time.sleep(seconds / 2)
            self.kick(number)
            os.waitpid(publisher, 0)
            self.counter("kicks")
            return (words[used] - first) & 0xFFFF
