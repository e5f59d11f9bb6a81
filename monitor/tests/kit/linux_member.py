"""A guest of a host that lends: Linux with a balloon, and the bytes that it keeps."""

import contextlib
import os
import signal

from linux_guest import Guest
from linux_kit import Fault
from linux_vmms import Shape
from waiting import PATIENCE

# MiB that a guest keeps all the time.
KEPT = 10


class Member:
    """A guest of a host: Linux with a balloon, and the bytes that it keeps; its memory may be in a
    folder of its own, it may have a disk, and its process may begin as others (`before` is their
    words)."""

    def __init__(self, host, vmm, name, memory, terms="", place=None, disk=None, before=()):
        self.host, self.vmm, self.name, self.memory, self.place = host, vmm, name, memory, place
        self.disk, self.before = disk, before
        self.socket = host.add(f"{name} {terms}".strip())
        self.guest, self.sums, self.checked = None, {}, 0

    def folder(self):
        """Returns where the files of its process are."""
        return os.path.join(self.host.folder, f"{self.name}.files")

    def boot(self):
        """Boots it, and has it keep some bytes."""
        folder = self.folder()
        os.makedirs(folder, exist_ok=True)
        self.sums = {}
        words = [
            *self.before,
            *self.vmm.words(
                folder, Shape(self.memory, disk=self.disk, place=self.place), self.socket
            ),
        ]
        self.guest = Guest(words, self.environment(), (), folder, self.memory)
        try:
            self.guest.boot()
            if not self.host.guests()[self.name]["ready"]:
                raise Fault("the guest has no balloon")
        except Fault as fault:
            raise Fault(
                f"{self.name}: {fault}; the host said: {self.host.why_of(self.name)}"
            ) from None
        self.fill("keep", KEPT)

    def environment(self):
        """Returns its process's environment, which says where its memory is."""
        return self.vmm.environment() | ({"TMPDIR": self.place} if self.place else {})

    def read_all(self, limit):
        """Has its memory read past its driver; returns as `Guest.end`."""
        return self.vmm.read_all(self.guest, self.folder(), limit)

    def fill(self, name, mib):
        """Has it fill a file with random bytes, in its memory."""
        self.guest.do(f"fill {name} {mib}")
        self.sums[name] = self.guest.do(f"sums {name}")

    def drop(self, name):
        """Has it free a file, whose sum has to be right."""
        self.check(name)
        self.guest.do(f"drop {name}")
        del self.sums[name]

    def check(self, *names):
        """Demands that files have their sums; all that there are, where none is named."""
        for name in names or tuple(self.sums):
            said = self.guest.do(f"sums {name}")
            if said != self.sums[name]:
                raise Fault(f"{self.name}: kept bytes have changed: {said} was {self.sums[name]}")
            self.checked += 1

    def held_mib(self):
        """Returns the MiB that its memory holds on the host."""
        return self.guest.held_mib() if self.guest else 0.0

    def free_mib(self):
        """Returns the MiB that it calls free."""
        return self.guest.memory_mib()[1]

    def killed(self):
        """Returns what its kernel said of processes that it killed, and of itself."""
        return self.guest.do("trouble")

    def take(self):
        """Takes its guest, which is about to reboot or to panic."""
        guest, self.guest = self.guest, None
        guest.let_go()
        return guest

    def reboot(self, guest):
        """Has its guest reboot, and keep bytes again."""
        self.vmm.keep_on_reboot(self.folder(), True)
        guest.begin("reboot -f")
        guest.boot()
        self.vmm.keep_on_reboot(self.folder(), False)
        self.sums, self.guest = {}, guest
        self.fill("keep", KEPT)

    def panic(self, guest):
        """Has its guest's kernel panic, which ends its process; then another one boots."""
        guest.begin("exec false")
        guest.process.wait(PATIENCE)
        guest.close()
        self.boot()

    def kill(self):
        """Ends its processes at once, if they haven't ended."""
        with contextlib.suppress(ProcessLookupError):
            os.killpg(self.guest.process.pid, signal.SIGKILL)
        self.guest.process.wait()
        self.guest.close()
        self.guest = None

    def close(self):
        """Has it power off."""
        if self.guest:
            self.guest.close()
            self.guest = None
