"""The jobs that measure-overcommit gives its guests."""

import os
import random
import threading
import time
from typing import NamedTuple

from linux_kit import Fault
from linux_member import Member

# MiB that a guest fills, of its disk and of what it reads of that, and that it compresses; how
# often it reads; the longest that it keeps what it filled, and that it rests.
LEAST_FILL, MOST_FILL, DISK, READ, COMPRESSED = 30, 120, 64, 40, 6
MOST_READS, MOST_KEEP, MOST_REST = 3, 2.0, 1.0

# Seconds for which one job may last.
LONGEST_JOB = 300


def boot(town, folder, memories, disk=DISK):
    """Boots guests of these sizes, whose disks stay open, so that their page cache does."""
    path = os.path.join(folder, "disk")
    with open(path, "wb") as file:
        file.write(random.Random(0).randbytes(disk << 20))
    for number, memory in enumerate(memories, 1):
        member = Member(town.host, town.vmm, f"guest-{number}", memory, disk=path)
        town.members.append(member)
        member.boot()
        member.guest.do("exec 3< /dev/ubda")


def waits_of(town, before=None):
    """Returns how many granted waits there were below each bound, or since such an answer."""
    counts = town.host.status()["host"]["measures"]["waits"]["counts"]
    return [now - then for now, then in zip(counts, before or [0] * len(counts))]


def longest_of(town, counts):
    """Returns the milliseconds that these waits were shorter than; infinite above the bounds."""
    bounds = [*town.host.status()["host"]["measures"]["waits"]["bounds"], float("inf")]
    return 1000 * max((bound for bound, count in zip(bounds, counts) if count), default=0)


class Stuck(Fault):
    """A job that lasts too long."""


class Job(NamedTuple):
    """What a guest does: its kind, MiB, how often it reads, and how long it keeps and rests."""

    kind: str
    size: int
    reads: int
    keeps: float
    rests: float


def jobs_of(seed, guest, count):
    """Returns the jobs of a guest."""
    chance = random.Random(f"{seed} {guest}")
    return [
        Job(
            chance.choice(("fill", "fill", "read", "compute")),
            chance.randint(LEAST_FILL, MOST_FILL),
            chance.randint(1, MOST_READS),
            chance.random() * MOST_KEEP,
            chance.random() * MOST_REST,
        )
        for _ in range(count)
    ]


def jobs_in_step(seed, count):
    """Returns jobs of which each guest has the same: all fill memory at the same time."""
    return [it._replace(kind="fill", rests=0.0) for it in jobs_of(seed, "all guests", count)]


class Work(threading.Thread):
    """A guest at its jobs."""

    def __init__(self, member, jobs, end):
        super().__init__(daemon=True)
        self.member, self.jobs, self.until = member, list(jobs), end
        self.took, self.fault = 0.0, None

    def do(self, line):
        """Has the guest do something, and counts its time."""
        begin = time.monotonic()
        try:
            said = self.member.guest.do(line, LONGEST_JOB)
        except Fault:
            if time.monotonic() - begin < LONGEST_JOB:
                raise
            raise Stuck(self.member.name) from None
        self.took += time.monotonic() - begin
        return said

    def fill(self, job):
        """Fills memory, and demands that what is read again is what was filled."""
        self.do(f"fill work {job.size}")
        first = self.do("sums work")
        time.sleep(job.keeps)
        for _ in range(job.reads):
            if self.do("sums work") != first:
                raise Fault(f"{self.member.name}: kept bytes have changed")
        self.do("drop work")

    def read(self, job):
        """Reads its disk through the page cache."""
        for _ in range(job.reads):
            self.do(f"dd if=/dev/ubda of=/dev/null bs=1M count={READ} 2> /dev/null")

    def compute(self, job):
        """Compresses bytes."""
        for _ in range(job.reads):
            self.do(f"dd if=/dev/urandom bs=1M count={COMPRESSED} 2> /dev/null | gzip > /dev/null")

    def run(self):
        """Does its jobs, as long as there is time."""
        try:
            while self.jobs and time.monotonic() < self.until:
                job = self.jobs.pop(0)
                getattr(self, job.kind)(job)
                time.sleep(job.rests)
        except Fault as fault:
            self.fault = fault


def raise_first(faults):
    """Raises the first fault, if there is one; jobs that last too long are one, with all names."""
    for it in faults:
        if not isinstance(it, Stuck):
            raise it
    if faults:
        raise Stuck(", ".join(map(str, faults)))
