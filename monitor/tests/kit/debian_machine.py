"""A machine of its own under QEMU, with Debian 13, systemd and cgroups of the second version, in
which commands are run."""

import json
import os
import shutil
import socket
import subprocess
import tarfile
import time

from debian_disk import PORT, demand_disk, disk
from linux_packages import Fault, last_line
from linux_vmms import Qemu, accelerator, fetched_qemu

# MiB and processors of the machine.
MEMORY, PROCESSORS = 1024, 2

# Seconds in which something has to go on: a boot says more on its console, a command prints a line.
# The machine may be emulated, beside other work.
QUIET = 600

# The most seconds of a command, whatever it prints.
LIMIT = 5400

# Lines of a command that a fault has.
LINES = 12

WORDS = "root=/dev/vda rw console=ttyS0 panic=-1 no_timer_check systemd.show_status=1"


def program():
    """Returns the words that begin a command of QEMU: of the one that is installed, or of one that
    is fetched."""
    installed = shutil.which("qemu-system-x86_64")
    return [installed] if installed else fetched_qemu(Qemu.debian)


def demand_machine():
    """Says what a machine can't be booted without; what is fetched is there from then on."""
    demand_disk(), program(), disk()


def pack(path, files):
    """Makes the disk of what comes with a machine: files and folders, by where they are there."""

    def wanted(it):
        return None if it.name.endswith("__pycache__") else it

    with tarfile.open(path, "w") as archive:
        for name, source in files.items():
            archive.add(source, name, filter=wanted)


class Machine:
    """A machine that is booted with these files, and has ended at the end. Its folder has what it
    said: by its port, and on its console."""

    def __init__(self, folder, files):
        self.folder, self.console = folder, f"{folder}/console"
        self.rest, self.port = b"", None
        pack(f"{folder}/files", files)
        its = disk()
        drives = [f"file={its.image},snapshot=on", f"file={folder}/files,readonly=on"]
        words = [
            *program(),
            "-nodefaults",
            "-no-user-config",
            "-display",
            "none",
            "-accel",
            accelerator(),
            "-smp",
            str(PROCESSORS),
            "-m",
            f"{MEMORY}M",
            "-machine",
            "q35",
            "-no-reboot",
            "-serial",
            f"file:{self.console}",
            "-kernel",
            its.kernel,
            "-initrd",
            its.initramfs,
            "-append",
            WORDS,
            *(word for it in drives for word in ("-drive", f"{it},format=raw,if=virtio")),
            "-device",
            "virtio-serial-pci",
            "-chardev",
            f"socket,id=commands,path={folder}/commands,server=on,wait=off",
            "-device",
            f"virtserialport,chardev=commands,name={PORT}",
        ]
        with open(f"{folder}/qemu", "wb") as log:
            self.process = subprocess.Popen(words, stdin=subprocess.DEVNULL, stdout=log, stderr=log)

    def __enter__(self):
        try:
            self.connect()
            self.answer("its boot", lambda _: None)
        except BaseException:
            self.__exit__()
            raise
        return self

    def __exit__(self, *_):
        self.process.kill()
        self.process.wait()
        if self.port:
            self.port.close()

    def connect(self):
        """Comes to the port, once QEMU has made it."""
        self.port = socket.socket(socket.AF_UNIX)
        self.port.settimeout(1)
        while self.port.connect_ex(f"{self.folder}/commands") != 0:
            self.demand_process("its start")
            time.sleep(0.05)

    def demand_process(self, what):
        """Says how QEMU has ended, where it has."""
        if self.process.poll() is not None:
            with open(f"{self.folder}/qemu", encoding="utf-8", errors="replace") as log:
                raise Fault(
                    f"the machine has ended, at {what}: {last_line(log.read()) or self.said()}"
                )

    def said(self):
        """Returns the last line on its console."""
        with open(self.console, encoding="latin-1") as console:
            return last_line(console.read())

    def line(self, what):
        """Returns the next line of the port. What is said on the console meanwhile is progress,
        too."""
        seen, end = 0, time.monotonic() + QUIET
        while b"\n" not in self.rest:
            now = os.path.getsize(self.console) if os.path.exists(self.console) else 0
            seen, end = (now, time.monotonic() + QUIET) if now != seen else (seen, end)
            self.demand_process(what)
            if time.monotonic() > end:
                raise Fault(
                    f"{what} hangs: nothing for {QUIET} s; the console's last line: {self.said()}"
                )
            try:
                self.rest += self.port.recv(1 << 16)
            except TimeoutError:
                continue
        line, self.rest = self.rest.split(b"\n", 1)
        with open(f"{self.folder}/said", "ab") as log:
            log.write(line + b"\n")
        return json.loads(line)

    def answer(self, what, hear):
        """Returns the status that comes, and what was printed before it; `hear` has each line."""
        lines, end = [], time.monotonic() + LIMIT
        while not isinstance(it := self.line(what), int):
            hear(it)
            lines.append(it)
            if time.monotonic() > end:
                raise Fault(f"{what} hangs, after {LIMIT} s: {' | '.join(lines[-LINES:])}")
        return it, lines

    def run(self, words, what, hear=lambda _: None):
        """Runs shell words there, which have to end with status 0, and returns what they
        printed."""
        status, lines = self.tried(words, what, hear)
        if status != 0:
            raise Fault(f"{what}: status {status}: {' | '.join(lines[-LINES:])}")
        return "\n".join(lines)

    def tried(self, words, what, hear=lambda _: None):
        """Runs shell words there, and returns their status and the lines that they printed."""
        self.port.sendall(json.dumps(words).encode() + b"\n")
        return self.answer(what, hear)
