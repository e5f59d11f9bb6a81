"""Where the kernel limits what a guest holds: a tmpfs that has its memory file alone, and a cgroup,
of the version that has this machine's memory. Both are for root."""

import contextlib
import os
import subprocess
import time

PAGE, MIB = 4096, 1 << 20

# Where cgroups are: those of the first version with memory, and those of the second version.
FIRST, SECOND = "/sys/fs/cgroup/memory", "/sys/fs/cgroup"

# The files of a cgroup's limit, and of what it has, by the version.
FILES = {
    FIRST: ("memory.limit_in_bytes", "memory.usage_in_bytes"),
    SECOND: ("memory.max", "memory.current"),
}

# Seconds in which a cgroup is empty, once its processes were killed.
EMPTY_IN = 20


def run(*words):
    """Runs a program that has to succeed."""
    subprocess.run(words, check=True, stdin=subprocess.DEVNULL, capture_output=True)


def of_second_version():
    """Whether cgroups of the second version have limits of memory here, and some more may be
    made."""
    try:
        with open(f"{SECOND}/cgroup.subtree_control", encoding="ascii") as its:
            return "memory" in its.read().split() and os.access(SECOND, os.W_OK)
    except OSError:
        return False


def cgroups():
    """Returns where this machine has cgroups with memory; nowhere, if it has none."""
    if os.path.exists(f"{FIRST}/{FILES[FIRST][0]}"):
        return FIRST
    return SECOND if of_second_version() else None


@contextlib.contextmanager
def ramfs(path):
    """A file system of memory in which nothing can be discarded."""
    os.makedirs(path)
    run("mount", "-t", "ramfs", "kept", path)
    yield path
    run("umount", "-l", path)


class Mount:
    """A tmpfs of its own."""

    def __init__(self, path, mib=1, options="mode=700,nosuid,noexec"):
        self.path, self.term, self.options = path, f"tmpfs:{path}", options
        os.makedirs(path, exist_ok=True)
        self.mount(mib)

    def mount(self, mib=1):
        """Mounts it."""
        run("mount", "-t", "tmpfs", "-o", f"size={mib}m,{self.options}", "limits", self.path)

    def pages(self):
        """Returns how many pages it may have."""
        its = os.statvfs(self.path)
        return its.f_blocks * its.f_frsize // PAGE

    def held(self):
        """Returns how many pages it has."""
        its = os.statvfs(self.path)
        return (its.f_blocks - its.f_bfree) * its.f_frsize // PAGE

    def member(self):
        """Returns where a guest's memory is so that this limits it, and how its process begins."""
        return {"place": self.path}

    def end(self):
        """Unmounts it, if it is mounted; its folder stays."""
        subprocess.run(["umount", "-l", self.path], stdin=subprocess.DEVNULL, capture_output=True)


class Cgroup:
    """A cgroup of its own, which nobody is in at first, below another one of its own."""

    def __init__(self, name):
        self.limit, self.usage = FILES[cgroups()]
        self.above = f"{cgroups()}/tests-{os.getpid()}"
        self.path = f"{self.above}/{name}"
        self.term = f"cgroup:{self.path}"
        self.make()

    def make(self):
        """Makes it, and the one above it."""
        os.makedirs(self.path)
        if cgroups() == SECOND:
            self.has_limits_below(self.above)

    @staticmethod
    def has_limits_below(path, change="+"):
        """Has the cgroups below one have limits of memory, or none."""
        with open(f"{path}/cgroup.subtree_control", "w", encoding="ascii") as its:
            its.write(f"{change}memory")

    def pages_of(self, name):
        """Returns how many pages a file of it says; more than there can be where it says `max`."""
        with open(f"{self.path}/{name}", encoding="ascii") as its:
            said = its.read().strip()
        return (1 << 63 if said == "max" else int(said)) // PAGE

    def pages(self):
        """Returns how many pages it may have."""
        return self.pages_of(self.limit)

    def held(self):
        """Returns how many pages it has."""
        return self.pages_of(self.usage)

    def member(self):
        """Returns where a guest's memory is so that this limits it, and how its process begins."""
        return {"before": ("sh", "-c", f'echo $$ > {self.path}/cgroup.procs && exec "$@"', "sh")}

    def end(self):
        """Removes it, once its processes have ended, and the one above it with the last."""
        end = time.monotonic() + EMPTY_IN
        while os.path.exists(self.path) and time.monotonic() < end:
            with contextlib.suppress(OSError):
                os.rmdir(self.path)
            time.sleep(0.1)
        with contextlib.suppress(OSError):
            os.rmdir(self.above)
