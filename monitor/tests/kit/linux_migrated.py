"""Linux guests that migrate, or are saved: QEMUs of Debian 13, or of another one, on one machine,
each with its backend, and the device vhost-user-balloon-pci preloaded into them."""

import hashlib
import os
import subprocess
import sys

from linux_guest import Backend, Guest
from linux_packages import ROOT, Fault, Missing, last_line
from linux_vmms import Qemu, accelerator, fetched_qemu
from waiting import eventually

DEBIAN, DEVICE = "trixie", "vhost-user-balloon-pci"

# QEMU's words for how it runs a guest: the first where none is asked for.
ACCELERATORS = ("tcg", "kvm")

# Bytes of a page; pages that are compared at a time.
PAGE, AT_A_TIME = 4096, 256

# The status of a device whose driver is ready.
DRIVER_OK = 15

# What both sides of a migration can: libvirt sets the same. By the way back a source knows how it
# ended.
CAPABILITIES = ("events", "return-path")


def module(suite):
    """Returns the device's module, which tools/qemu-balloon builds for the QEMU of this Debian."""
    words = [os.path.join(ROOT, "tools", "qemu-balloon"), "--path", "--suite", suite]
    ran = subprocess.run([sys.executable, *words], capture_output=True, text=True)
    if ran.returncode != 0:
        raise Missing(last_line(ran.stderr))
    return ran.stdout.strip()


def preloaded(built_for, debian, besides=()):
    """Returns the words that begin a command of QEMU of a Debian, with the module that was built
    for that of another, or of the same, and modules besides. They are preloaded by the loader, and
    so in no process that QEMU starts."""
    words = fetched_qemu(debian)
    loader = next(i for i, it in enumerate(words) if "ld-linux" in it)
    modules = ":".join([module(built_for), *besides])
    return [*words[: loader + 1], "--preload", modules, *words[loader + 1 :]]


class Migrating(Qemu):
    """QEMU of a Debian with this repository's device, of which a guest may migrate. The guest's
    kernel is Debian 13's in each case."""

    devices = (DEVICE,)
    OF_BALLOON = {}
    # On a busy machine an emulated processor may stand still for longer than the kernel likes.
    kernel_words = (*Qemu.kernel_words, "nowatchdog", "rcupdate.rcu_cpu_stall_suppress=1")

    def __init__(self, folder, suite=None, asked=None):
        if asked == "kvm" and accelerator() != "kvm":
            raise Missing(
                "--accelerator kvm: KVM doesn't answer here, or takes only kernels that are made "
                "for it (the processor has neither vmx nor svm)"
            )
        self.debian, self.asked = suite or DEBIAN, asked or ACCELERATORS[0]
        super().__init__(folder, DEBIAN)

    def find(self):
        """Returns the words that begin a command of QEMU, and its device."""
        return preloaded(self.debian, self.debian), DEVICE

    def words(self, folder, shape, path):
        """Returns the guest's command; a backend that has gone is looked for again, and there is a
        slot for one more device."""
        words = super().words(folder, shape, f"{path},reconnect-ms=200")
        return [*words, "-device", "pcie-root-port,id=port2,chassis=2,slot=2"]

    def accelerator(self):
        """Returns QEMU's word for what was asked for, and never another."""
        return self.asked

    def device_words(self, shape):
        """Returns the device by its names."""
        words = super().device_words(shape)
        queues = {"num-queues": words.pop("num_vqs"), "queue-size": words.pop("vq_size")}
        return {**words, **queues}


class Side:
    """One of two hosts: a QEMU and its backend."""

    def __init__(self, vmm, program, folder, shape, options=(), incoming=False):
        os.makedirs(folder, exist_ok=True)
        self.folder, self.vmm, self.memory_mib = folder, vmm, shape.memory
        self.socket = os.path.join(folder, "socket")
        self.program, self.options = program, options
        self.backend = self.begin()
        words = vmm.words(folder, shape, self.socket)
        words += ["-incoming", "defer", "-S"] if incoming else []
        self.guest = Guest(words, vmm.environment(), (), folder, shape.memory)
        self.qmp = None
        try:
            if not incoming:
                self.guest.boot()
            self.qmp = eventually(self.connected, self.guest.why)
            if incoming:
                self.guest.held = self.guest.memory_file()
        except BaseException:
            self.close()
            raise

    def begin(self):
        """Starts the backend."""
        return Backend(self.program, self.folder, [self.socket, *self.options])

    def connected(self):
        """Returns a client of QEMU's control socket, once there is one."""
        try:
            return self.vmm.control(self.folder)
        except (FileNotFoundError, ConnectionRefusedError):
            if self.guest.process.poll() is not None:
                raise Fault(f"QEMU has gone: {self.guest.why()}") from None
            return None

    def stop(self):
        """Kills the backend."""
        self.backend.process.kill()
        self.backend.close()

    def start(self):
        """Starts another backend in its place, and waits until the driver's queues run there."""
        self.backend = self.begin()
        eventually(lambda: self.counter("status") == DRIVER_OK, self.backend.why)

    def plug(self, path):
        """Plugs one more balloon in, whose backend is at this socket."""
        address = {"type": "unix", "data": {"path": path}}
        backend = {"type": "socket", "data": {"addr": address, "server": False}}
        self.qmp.do("chardev-add", id="other", backend=backend)
        self.qmp.do("device_add", driver=DEVICE, id="other", bus="port2", chardev="other")

    def counter(self, name):
        """Returns one of the backend's counters."""
        return self.backend.counters()[name]

    def held_mib(self):
        """Returns the MiB that the guest's memory holds here."""
        return self.guest.held_mib()

    def set_size(self, mib):
        """Asks for a guest of `mib` MiB, by QEMU's own command."""
        self.qmp.do("balloon", value=mib << 20)

    def size_mib(self):
        """Returns the MiB of the guest without its balloon, by QEMU's own question."""
        return self.qmp.do("query-balloon")["actual"] / (1 << 20)

    def settle(self):
        """Waits until the balloon is what is asked for."""
        eventually(
            lambda: (lambda it: it["actual"] == it["target"])(self.backend.counters()),
            lambda: f"{self.backend.counters()}: {self.backend.why()}",
        )

    def await_status(self, wanted):
        """Waits until QEMU says that its guest is so."""
        eventually(
            lambda: self.qmp.do("query-status")["status"] == wanted,
            lambda: f"{self.qmp.do('query-status')}: {self.guest.why()}",
        )

    def memory_at(self, page):
        """Returns some pages of the guest's memory from this one on. A read of the file fills no
        hole."""
        return os.pread(self.guest.held, AT_A_TIME * PAGE, page * PAGE)

    def memory(self):
        """Returns the sum of the guest's memory."""
        sum_of = hashlib.blake2b()
        for page in range(0, (self.memory_mib << 20) // PAGE, AT_A_TIME):
            sum_of.update(self.memory_at(page))
        return sum_of.hexdigest()

    def can(self, name):
        """Has QEMU be capable of something in a migration."""
        capability = {"capability": name, "state": True}
        self.qmp.do("migrate-set-capabilities", capabilities=[capability])

    def job(self, command, **arguments):
        """Has QEMU do a job, and waits for its end."""
        self.qmp.do(command, **{"job-id": "job"}, **arguments)
        done = eventually(
            lambda: [it for it in self.qmp.do("query-jobs") if it["status"] == "concluded"]
        )
        self.qmp.do("job-dismiss", id="job")
        if "error" in done[0]:
            raise Fault(f"{command}: {done[0]['error']}")

    def add_snapshots(self):
        """Gives QEMU a file in which its guest can be saved; no device of the guest's."""
        path = os.path.join(self.folder, "snapshots")
        self.job("blockdev-create", options={"driver": "file", "filename": path, "size": 0})
        self.qmp.do("blockdev-add", driver="file", filename=path, **{"node-name": "file"})
        self.job("blockdev-create", options={"driver": "qcow2", "file": "file", "size": 1 << 20})
        self.qmp.do("blockdev-add", driver="qcow2", file="file", **{"node-name": "snapshots"})

    def snapshot(self, command):
        """Has QEMU save its guest, or load it: snapshot-save, snapshot-load."""
        self.job(command, tag="one", vmstate="snapshots", devices=["snapshots"])

    def status(self):
        """Returns how far a migration is, and why it isn't."""
        said = self.qmp.do("query-migrate")
        return said.get("status", "none"), said

    def close(self):
        """Ends both: also a guest that doesn't run, or that has gone."""
        if self.qmp:
            self.end_qemu()
        else:
            self.guest.process.kill()
        self.guest.close()
        if self.backend:
            self.backend.close()

    def end_qemu(self):
        """Has QEMU end, whether its guest runs or not."""
        try:
            self.qmp.do("quit")
        except (Fault, OSError):
            pass
        self.qmp.close()


class Pair:
    """A guest on one side, and the other side, which it may migrate to."""

    of = Side

    def __init__(self, vmm, program, folder, shape, options=()):
        self.vmm, self.program, self.folder, self.shape = vmm, program, str(folder), shape
        self.options, self.number, self.sides, self.most_held = options, 0, [], 0
        try:
            self.source = self.side(False)
            self.destination = self.side(True)
        except BaseException:
            self.close()
            raise

    def side(self, incoming):
        """Starts one more side."""
        folder = os.path.join(self.folder, f"side{self.number}")
        self.number += 1
        side = self.of(self.vmm, self.program, folder, self.shape, self.options, incoming)
        self.sides.append(side)
        return side

    def begin(self, **parameters):
        """Begins to migrate, with these parameters of QEMU's."""
        uri = f"unix:{self.destination.folder}/migration"
        for it in (self.source, self.destination):
            for name in CAPABILITIES:
                it.can(name)
        if parameters:
            self.source.qmp.do("migrate-set-parameters", **parameters)
        self.most_held = 0
        self.destination.qmp.do("migrate-incoming", uri=uri)
        self.source.qmp.do("migrate", uri=uri)

    def look(self):
        """Returns how far the migration is, and notes the most that a side has held so far."""
        self.most_held = max(self.most_held, *(it.held_mib() for it in self.sides))
        return self.source.status()

    def end(self, wanted="completed"):
        """Waits until the migration has come to this."""
        ended = ("completed", "failed", "cancelled")
        said = eventually(
            lambda: (lambda it: it if it[0] in ended else None)(self.look()),
            lambda: str(self.source.status()),
        )
        if said[0] != wanted:
            raise Fault(f"{said[1]}: {self.destination.guest.why()}; {self.source.guest.why()}")
        return said[1]

    def differing(self):
        """Returns the pages in which the guest's memory differs, which runs on neither side."""
        pages = (self.shape.memory << 20) // PAGE
        found = []
        for first in range(0, pages, AT_A_TIME):
            one, other = (it.memory_at(first) for it in (self.source, self.destination))
            if one != other:
                page_of = lambda data, at: data[at * PAGE : (at + 1) * PAGE]
                found += [
                    first + at for at in range(AT_A_TIME) if page_of(one, at) != page_of(other, at)
                ]
        return found

    def arrive(self):
        """Waits until the migration is over, demands that the guest's memory is the same on both
        sides, and has it run on the other one."""
        self.end()
        self.destination.await_status("paused")
        different = self.differing()
        if different:
            raise Fault(f"{len(different)} pages differ: {different[:8]}")
        self.destination.qmp.do("cont")
        self.destination.await_status("running")

    def hurry(self, bandwidth=0):
        """Gives the migration another bandwidth, bytes a second; 0: without a limit."""
        self.source.qmp.do("migrate-set-parameters", **{"max-bandwidth": bandwidth})

    def migrate(self, **parameters):
        """Migrates: as `begin`, and `arrive`."""
        self.begin(**parameters)
        self.arrive()

    def sent_mib(self):
        """Returns the MiB of memory that were sent so far."""
        return self.source.status()[1].get("ram", {}).get("transferred", 0) / (1 << 20)

    def turn(self):
        """The guest has arrived: its side is the source of what comes next, and another one the
        destination."""
        self.source.close()
        self.sides.remove(self.source)
        self.source, self.destination = self.destination, self.side(True)

    def renew(self):
        """Has another side in the destination's place."""
        self.destination.close()
        self.sides.remove(self.destination)
        self.destination = self.side(True)

    def close(self):
        """Ends all sides."""
        for it in self.sides:
            it.close()
