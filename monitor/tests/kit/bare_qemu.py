"""QEMU with this repository's balloon and without a Linux: its processor stands still, and a test
reads and writes what a driver would, by QEMU's own protocol of tests; and a backend that goes amid
a message of QEMU's."""

import array
import glob
import os
import socket
import struct
import subprocess
from contextlib import suppress
from threading import Thread

from linux_guest import Backend
from linux_migrated import DEVICE, preloaded
from linux_packages import Fault, last_line
from qmp import Qmp
from waiting import PATIENCE, eventually

# MiB of the guest; the balloon's slot, where its registers are, and its queues.
MEMORY, SLOT, REGISTERS, QUEUES = 64, 5, 0xE0000000, 4

# Registers of the machine: a bus whose devices a guest lets go of, and the slots of these.
OF_BUS, EJECTS = 0xAE10, 0xAE08

# Memory that QEMU has let go of is filled, so that a look at it is seen.
IS_FILLED = {"MALLOC_PERTURB_": "165"}

# The processor's first instructions: it waits for an interrupt, which doesn't come.
STANDS_STILL = b"\xf4" * (1 << 16)

# Of the configuration space of PCI: its command, where its first BAR and its first capability are,
# and the identifier of a capability of VIRTIO.
COMMAND, FIRST_BAR, FIRST_CAPABILITY, OF_VIRTIO = 4, 0x10, 0x34, 9
MEMORY_AND_MASTER = 6

# Capabilities, and fields of the common configuration (VIRTIO 1.1, 4.1.4.3).
COMMON, NOTIFY, OF_DEVICE = 1, 2, 4
DRIVER_SELECT, DRIVER_FEATURES, STATUS = 8, 12, 20
SELECT, SIZE, ENABLE, ADDRESSES = 22, 24, 28, (32, 40, 48)

# Statuses: acknowledged with a driver; features too; the driver is ready.
DRIVER, FEATURES_OK, DRIVER_OK = 3, 11, 15
FEATURES, ENTRIES = 0x100000007, 64

# Where each queue is, the parts of each, and a page number to inflate.
OF_QUEUE, OF_PART, NAMED = 0x10000, 0x4000, 0x80000
PAGE = 4096

# The head of a message of vhost-user, and the most files that may come with it.
HEAD, MOST_FILES = struct.Struct("<III"), 64


class Between:
    """Hands messages on between QEMU and a backend of its own for each connection. `cut` has both
    lose it amid one that is still to come."""

    def __init__(self, program, folder):
        self.program, self.folder, self.left, self.backend = program, folder, None, None
        self.change = lambda request, body: body
        self.path = os.path.join(folder, "between")
        self.server = socket.socket(socket.AF_UNIX)
        self.server.bind(self.path)
        self.server.listen()
        Thread(target=self.serve, daemon=True).start()

    def cut(self, messages):
        """Has the connection end amid one of the next messages of QEMU's: 0 is the next one."""
        self.left = messages

    def runs(self):
        """Whether a driver's queues run at the backend, which may be about to go."""
        with suppress(Fault, ValueError):
            return self.backend.counters()["status"] == DRIVER_OK
        return False

    def serve(self):
        """Serves connections, one after another."""
        with suppress(OSError):
            while True:
                self.serve_one(self.server.accept()[0])

    def serve_one(self, one):
        """Serves a connection until it ends."""
        path = os.path.join(self.folder, "socket")
        self.backend = Backend(self.program, self.folder, [path])
        with one, socket.socket(socket.AF_UNIX) as other:
            other.connect(path)
            back = Thread(target=self.hand_on, args=(other, one, False))
            back.start()
            self.hand_on(one, other, True)
            back.join()
        self.backend.process.kill()
        self.backend.close()

    def hand_on(self, here, there, counts):
        """Hands messages on in a direction, with their files."""
        with suppress(OSError):
            while not (counts and self.ends()):
                if not (message := self.read(here)):
                    break
                there.sendmsg([message[0]], message[1])
                for *_, files in message[1]:
                    for file in array.array("i", files):
                        os.close(file)
        for it in (here, there):
            with suppress(OSError):
                it.shutdown(socket.SHUT_RDWR)

    def ends(self):
        """Whether the connection ends now."""
        if self.left is None:
            return False
        self.left -= 1
        if self.left < 0:
            self.left = None
            return True
        return False

    def read(self, stream):
        """Returns a message, as `change` has it, and its files; None where there is none any
        more."""
        head, files, *_ = stream.recvmsg(HEAD.size, socket.CMSG_SPACE(4 * MOST_FILES))
        if len(head) < HEAD.size:
            return None
        request, _, size = HEAD.unpack(head)
        body = stream.recv(size, socket.MSG_WAITALL) if size else b""
        return head + self.change(request, body), files

    def close(self):
        """Takes no connection any longer."""
        self.server.close()


class Bare:
    """A QEMU whose processor stands still."""

    def __init__(self, debian, folder, preload=(), more=()):
        self.folder, self.at = folder, {}
        firmware, self.log = os.path.join(folder, "firmware"), os.path.join(folder, "qemu.log")
        with open(firmware, "wb") as file:
            file.write(STANDS_STILL)
        memory = f"memory-backend-memfd,id=memory,size={MEMORY}M,share=on"
        sockets = [
            it
            for name in ("qmp", "qtest")
            for it in (f"-{name}", f"unix:{folder}/{name},server=on,wait=off")
        ]
        words = [*preloaded(debian, debian, preload), "-nodefaults", "-no-user-config"]
        words += ["-display", "none", "-accel", "tcg", "-bios", firmware, "-m", f"{MEMORY}M"]
        words += ["-object", memory, "-machine", "pc,memory-backend=memory"]
        with open(self.log, "wb") as log:
            self.process = subprocess.Popen(
                [*words, *sockets, "-qtest-log", "none", *more],
                stdout=log,
                stderr=log,
                env={**os.environ, **IS_FILLED},
            )
        self.qmp = eventually(self.connected, self.why)
        self.tests = socket.socket(socket.AF_UNIX)
        self.tests.settimeout(PATIENCE)
        self.tests.connect(os.path.join(folder, "qtest"))
        self.lines, self.inflated = self.tests.makefile("r"), 0
        files = glob.glob(f"/proc/{self.process.pid}/fd/*")
        held = next(it for it in files if "memfd:memory-backend" in os.readlink(it))
        self.memory = os.open(held, os.O_RDONLY)

    def why(self):
        """Returns the last thing that it said."""
        with open(self.log, encoding="latin-1") as log:
            return last_line(log.read())

    def connected(self):
        """Returns a client of its control socket, once there is one."""
        try:
            return Qmp(os.path.join(self.folder, "qmp"))
        except OSError:
            if self.process.poll() is not None:
                raise Fault(f"QEMU has gone: {self.why()}") from None
            return None

    def ask(self, words):
        """Has it do commands of its protocol of tests, a line for each, in a row; returns the
        number of the last answer."""
        said = ""
        with suppress(ConnectionError):
            self.tests.sendall(f"{words}\n".encode())
            for _ in words.splitlines():
                said = self.lines.readline()
        if not said.startswith("OK"):
            raise Fault(f"QEMU says {said!r} to {words!r}: {self.why()}")
        return int(said[2:].strip() or "0", 0)

    def pci(self, at, words):
        """Reads or writes of the balloon's configuration space of PCI."""
        self.ask(f"outl 0xcf8 {1 << 31 | SLOT << 11 | at & ~3:#x}")
        name, *value = words.split()
        return self.ask(" ".join([name, hex(0xCFC + at % 4), *value]))

    def plug(self, path, **words):
        """Plugs a balloon in whose backend is at this socket; its registers are in reach then."""
        address = {"type": "unix", "data": {"path": path}}
        backend = {"type": "socket", "data": {"addr": address, "server": False, **words}}
        self.qmp.do("chardev-add", id="backend", backend=backend)
        try:
            words = {"id": "balloon", "bus": "pci.0", "addr": str(SLOT), "chardev": "backend"}
            self.qmp.do("device_add", driver=DEVICE, **words)
        except Fault:
            self.qmp.do("chardev-remove", id="backend")
            raise
        capability = self.pci(FIRST_CAPABILITY, "inb")
        while capability:
            if self.pci(capability, "inb") == OF_VIRTIO:
                bar, place = self.pci(capability + 4, "inb"), self.pci(capability + 8, "inl")
                self.at.setdefault(self.pci(capability + 3, "inb"), REGISTERS + place)
            capability = self.pci(capability + 1, "inb")
        self.pci(FIRST_BAR + 4 * bar, f"outl {REGISTERS:#x}")
        self.pci(COMMAND, f"outw {MEMORY_AND_MASTER}")

    def unplug(self, before):
        """Has the guest let go of its balloon, right after this command."""
        self.qmp.do("device_del", id="balloon")
        self.ask(f"outl {OF_BUS:#x} 0x0")
        self.ask(f"{before}\noutl {EJECTS:#x} {1 << SLOT:#x}")
        self.qmp.await_event("DEVICE_DELETED", device="balloon")

    def write(self, size, at, value):
        """Writes a field of the common configuration."""
        self.ask(f"write{size} {self.at[COMMON] + at:#x} {value:#x}")

    def drive(self):
        """Does what a driver does as it begins, with queues that are empty."""
        self.write("b", STATUS, DRIVER)
        for part in (0, 1):
            self.write("l", DRIVER_SELECT, part)
            self.write("l", DRIVER_FEATURES, FEATURES >> 32 * part & 0xFFFFFFFF)
        self.write("b", STATUS, FEATURES_OK)
        for queue in range(QUEUES):
            self.write("w", SELECT, queue)
            self.write("w", SIZE, ENTRIES)
            for part, address in enumerate(ADDRESSES):
                self.write("q", address, (1 + queue) * OF_QUEUE + part * OF_PART)
            self.write("w", ENABLE, 1)
        self.write("b", STATUS, DRIVER_OK)

    def reset(self):
        """Has the driver leave the device."""
        self.write("b", STATUS, 0)

    def fill(self, page):
        """Writes a page of the guest."""
        self.ask(f"memset {page * PAGE:#x} {PAGE} 0xff")

    def inflate(self, page):
        """Puts a page into the balloon, and waits until that is used."""
        available, used = (OF_QUEUE + part * OF_PART + 2 for part in (1, 2))
        self.inflated += 1
        for size, at, value in (
            ("l", NAMED, page),
            ("q", OF_QUEUE, NAMED),
            ("q", OF_QUEUE + 8, 4),
            ("w", available + 2 * self.inflated, 0),
            ("w", available, self.inflated),
            ("w", self.at[NOTIFY], 0),
        ):
            self.ask(f"write{size} {at:#x} {value:#x}")
        eventually(lambda: self.ask(f"readw {used:#x}") == self.inflated, self.why)

    def holds(self, page):
        """Whether a page of the guest has a frame."""
        return os.lseek(self.memory, page * PAGE, os.SEEK_HOLE) != page * PAGE

    def save(self, path):
        """Saves its guest to a file; returns why it didn't."""
        self.qmp.do("migrate", uri=f"file:{path}")
        return self.end()

    def load(self, path):
        """Loads a guest from a file; returns why it didn't."""
        self.qmp.do("migrate-incoming", uri=f"file:{path}")
        return self.end()

    def end(self):
        """Waits until a migration has ended; returns why it failed, or None."""
        ended = ("completed", "failed")
        said = eventually(
            lambda: (lambda it: it if it.get("status") in ended else None)(
                self.qmp.do("query-migrate")
            ),
            self.why,
        )
        return said.get("error-desc", self.why()) if said["status"] == "failed" else None

    def target(self):
        """Returns the target that the driver reads."""
        return self.ask(self.to_read_target())

    def to_read_target(self):
        """Returns the command that reads it."""
        return f"readl {self.at[OF_DEVICE]:#x}"

    def close(self):
        """Ends it."""
        with suppress(Fault, OSError):
            self.qmp.do("quit")
        self.qmp.close(), self.lines.close(), self.tests.close(), os.close(self.memory)
        try:
            self.process.wait(PATIENCE)
        except subprocess.TimeoutExpired:
            self.process.kill()
            self.process.wait()
