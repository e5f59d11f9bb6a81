"""The VMMs of a Linux with a balloon, each with what differs: its device's backend, its command,
and how it is told to act."""

import fcntl
import glob
import os
import re
import shutil
import socket
import subprocess
import sys
from typing import NamedTuple

from linux_initramfs import make_initramfs
from linux_packages import (
    Fault,
    Missing,
    busybox_of,
    fetch_kernel,
    fetch_qemu,
    fetch_uml,
    last_line,
    libc_of,
    need,
    one_of,
)
from qmp import Qmp

# A guest's command line, whatever it runs under.
KERNEL_WORDS = ("rdinit=/init", "panic=-1", "loglevel=1")

# How guest and device notify each other, and the backend's option for that. QEMU's notifications
# are events in each case.
FORMS = {"messages": (), "events": ("--events",)}

# KVM answers this request by this version (linux/kvm.h).
KVM_GET_API_VERSION, KVM_API_VERSION = 0xAE00, 12

# How many times as long as under User Mode Linux a wait may take under emulation, at least, on a
# machine that has other work.
EMULATED = 5

# The guests that are emulated beside each other in a run of a host: each takes a processor.
MOST_EMULATED = 2

# The first User Mode Linux that has room for all registers of a processor.
KEEPS_ALL_REGISTERS = (6, 13)

# The last QEMU whose PCI proxy works.
LAST_PROXY = 10


class Shape(NamedTuple):
    """What a guest is started with: its MiB, its processors, more words of its kernel's command
    line, the MiB that may be plugged in besides, what QEMU is told of its device's queues (how many
    there are, and the descriptors of each), the file of a disk that it reads alone, and the folder
    where QEMU has its memory."""

    memory: int
    processors: int = 1
    kernel_words: tuple = ()
    pluggable: int = 0
    queues: int = 4
    queue_size: int = 64
    disk: str = None
    place: str = None


def demand_shared_room(memory):
    """Says where /dev/shm has no room for the memory of guests, in MiB."""
    room = os.statvfs("/dev/shm")
    free = room.f_bavail * room.f_frsize >> 20
    if free < memory:
        raise Missing(
            f"/dev/shm has {free} MiB free, and {memory} are wanted for guests: mount -o "
            f"remount,size={memory + 64}M /dev/shm"
        )


def takes_any_kernel():
    """Whether KVM has a processor with virtualization under it: one without takes only kernels that
    are made for it."""
    with open("/proc/cpuinfo", encoding="utf-8") as file:
        flags = next((it.split() for it in file if it.startswith("flags")), ())
    return "vmx" in flags or "svm" in flags


def has_more_registers():
    """Whether the processor has registers for which User Mode Linux before 6.13 has no room."""
    with open("/proc/cpuinfo", encoding="utf-8") as file:
        return any(it.startswith("flags") and "amx_tile" in it.split() for it in file)


def build_preloaded(folder, name):
    """Compiles what is preloaded into a VMM: `more_registers` lets User Mode Linux leave such
    registers as they are, `no_discards` has QEMU forbid discards. Returns its path."""
    path, source = os.path.join(folder, f"{name}.so"), os.path.join(
        os.path.dirname(__file__), f"{name}.c"
    )
    ran = subprocess.run(
        [need("cc", "gcc libc6-dev"), "-O2", "-shared", "-fPIC", "-o", path, source],
        capture_output=True,
        text=True,
    )
    if ran.returncode != 0:
        raise Fault(f"{source} doesn't build: {last_line(ran.stderr)}")
    return path


def accelerator():
    """Returns QEMU's word for KVM where the machine's answers and takes any kernel, else for its
    own emulation."""
    try:
        with open("/dev/kvm", "rb+", buffering=0) as device:
            answers = fcntl.ioctl(device, KVM_GET_API_VERSION) == KVM_API_VERSION
    except OSError:
        return "tcg"
    return "kvm" if answers and takes_any_kernel() else "tcg"


class OverSocket:
    """The device is reached by vhost-user, at a socket of the backend's."""

    backend = "vhost_user_balloon"

    def connect(self, folder):
        """Returns what the backend and the guest are told of each other, and their files: none
        here."""
        path = os.path.join(folder, "socket")
        return (path, ()), (path, ())


class Uml(OverSocket):
    """User Mode Linux: a kernel that is a process."""

    forms, has_control, patience, most_guests = ("messages", "events"), False, 1, 64

    # Whether the device of a guest that reboots reconnects.
    reboots_anew = True

    def __init__(self, folder, suite=None):
        self.root, with_libc = fetch_uml(suite), os.path.join(
            os.path.dirname(__file__), "linux_with_libc.py"
        )
        kernel = os.path.join(self.root, "usr/bin/linux.uml")
        self.program = (
            [sys.executable, with_libc, *libc_of(self.root), kernel] if suite else [kernel]
        )
        module = one_of(self.root, "usr/lib/uml/modules/*/kernel/drivers/virtio/virtio_balloon.ko")
        self.initramfs = make_initramfs(folder, busybox_of(self.root), [module])
        version = tuple(map(int, re.search(r"/modules/(\d+)\.(\d+)", module).groups()))
        lacks = version < KEEPS_ALL_REGISTERS and has_more_registers()
        self.preloaded = {"LD_PRELOAD": build_preloaded(folder, "more_registers")} if lacks else {}

    def demand_room(self, memory):
        """Says where the host has no room for the memory of guests."""
        demand_shared_room(memory)

    def words(self, folder, shape, path):
        """Returns the guest's command."""
        self.demand_room(shape.memory)
        own = ("quiet", "con=null", "con0=fd:0,fd:1", f"uml_dir={folder}/uml")
        disk = (f"ubd0r={shape.disk}",) if shape.disk else ()
        return [
            *self.program,
            f"mem={shape.memory}M",
            f"initrd={self.initramfs}",
            *own,
            f"virtio_uml.device={path}:5",
            *disk,
            *KERNEL_WORDS,
            *shape.kernel_words,
        ]

    def environment(self):
        """Returns the guest's environment: its memory is in /dev/shm, but where one of these names
        another folder."""
        return {
            name: it for name, it in os.environ.items() if name not in ("TMPDIR", "TMP", "TEMP")
        } | self.preloaded

    def control(self, _):
        """Nobody tells it to act."""
        return None

    def keep_on_reboot(self, folder, keeps):
        """A guest that reboots stays in its process."""

    def read_all(self, guest, folder, limit):
        """Has a guest read its memory, /dev/mem; returns as `Guest.end`."""
        guest.begin("read_all")
        return guest.end("read_all", limit)


def can_create(program, device):
    """Whether a QEMU can create a device. It is asked for that one: for a list of all it loads each
    module, also those of another QEMU that is installed, which end it. The device's options alone
    don't say that it may be created."""
    said = subprocess.run([*program, "-device", f"{device},help"], capture_output=True, text=True)
    if said.returncode < 0:
        raise Missing(f"{program[0]}: {last_line(said.stderr)}")
    if not said.stdout.startswith(f"{device} options"):
        return False
    tried = subprocess.run(
        [*program, "-machine", "none", "-nodefaults", "-display", "none", "-device", device],
        capture_output=True,
        text=True,
    )
    return "pluggable device type" not in tried.stderr


def boot_files(folder, suite=None):
    """Returns the paths of a kernel of a Debian for QEMU, and of its first files, which are made in
    a folder."""
    files = fetch_kernel(suite)
    kernel = one_of(files, "boot/vmlinuz-*", "usr/lib/modules/*/vmlinuz")
    names = ("virtio/virtio*", "block/virtio_blk")
    modules = [
        it
        for top in ("", "usr/")
        for name in names
        for it in glob.glob(f"{files}/{top}lib/modules/*/kernel/drivers/{name}.ko*")
    ]
    return kernel, make_initramfs(folder, busybox_of(files), modules)


class Emulator:
    """QEMU, and a machine whose device isn't said. A class of it says which devices do (`devices`),
    whose QEMU is fetched where the one that is installed has none of them (`debian`), and what its
    kernel is told besides (`kernel_words`).
    """

    patience, most_guests = EMULATED, MOST_EMULATED

    def __init__(self, folder, suite=None):
        self.program, self.device = self.find()
        self.kernel, self.initramfs = boot_files(folder, suite)

    def find(self):
        """Returns the words that begin a command of a QEMU that has one of the devices, and
        which."""
        installed = shutil.which("qemu-system-x86_64")
        device = installed and self.device_of([installed])
        if device:
            return [installed], device
        program = fetched_qemu(self.debian)
        device = self.device_of(program)
        if not device:
            raise Missing(f"QEMU of Debian {self.debian} has no {self.devices[0]}")
        return program, device

    def device_of(self, program):
        """Returns the first of the devices that this QEMU can create, or none."""
        return next((it for it in self.devices if can_create(program, it)), None)

    def demand_room(self, _):
        """A memfd has no limit of its own."""

    def machine(self, shape):
        """Returns the guest's command but for the device."""
        slots = f",slots=1,maxmem={shape.memory + shape.pluggable}M" if shape.pluggable else ""
        memory = (
            f"memory-backend-file,mem-path={shape.place}" if shape.place else "memory-backend-memfd"
        )
        of_disk = (
            ("-drive", f"if=virtio,file={shape.disk},format=raw,read-only=on") if shape.disk else ()
        )
        return [
            *self.program,
            "-nodefaults",
            "-no-user-config",
            "-display",
            "none",
            "-accel",
            self.accelerator(),
            "-smp",
            str(shape.processors),
            "-no-reboot",
            "-serial",
            "stdio",
            "-m",
            f"{shape.memory}M{slots}",
            "-object",
            f"{memory},id=memory,size={shape.memory}M,share=on",
            "-machine",
            "q35,memory-backend=memory",
            "-kernel",
            self.kernel,
            "-initrd",
            self.initramfs,
            *of_disk,
            "-append",
            " ".join((*self.kernel_words, *KERNEL_WORDS, *shape.kernel_words)),
        ]

    def environment(self):
        """Returns the guest's environment."""
        return dict(os.environ)


def fetched_qemu(debian):
    """Returns the words that begin a command of a fetched QEMU: its own loader, libraries, modules
    and files of its machine."""
    root = fetch_qemu(debian)
    libraries = [os.path.join(root, it, "x86_64-linux-gnu") for it in ("usr/lib", "lib")]
    files = [
        it for name in ("qemu", "seabios") for it in ("-L", os.path.join(root, "usr/share", name))
    ]
    loader = [libc_of(root)[0], "--library-path", ":".join(libraries)]
    return [
        "env",
        f"QEMU_MODULE_DIR={libraries[0]}/qemu",
        *loader,
        os.path.join(root, "usr/bin/qemu-system-x86_64"),
        *files,
    ]


class Qemu(OverSocket, Emulator):
    """QEMU with its generic device of vhost-user, which Debian's builds can create from 10.2 on."""

    forms, has_control, reboots_anew = ("events",), True, False
    devices, debian = ("vhost-user-test-device-pci", "vhost-user-device-pci"), "sid"
    # On a busy machine a timer comes too late for the kernel's check of it.
    kernel_words = ("console=ttyS0", "no_timer_check", "memhp_default_state=online")

    # What the generic device is told of a balloon, beside its queues.
    OF_BALLOON = {"virtio-id": 5, "config_size": 16}

    def accelerator(self):
        """Returns QEMU's word for how it runs the guest."""
        return accelerator()

    def device_words(self, shape):
        """Returns the device by its names, as QEMU's command line and its control socket have
        them."""
        queues = {"num_vqs": shape.queues, "vq_size": shape.queue_size}
        return {
            "driver": self.device,
            "id": "balloon",
            "bus": "port1",
            "chardev": "device",
            **self.OF_BALLOON,
            **queues,
        }

    def words(self, folder, shape, path):
        """Returns the guest's command; the device is in a slot from which it can be unplugged."""
        device = ",".join(
            f"{name}={it}" for name, it in self.device_words(shape).items()
        ).removeprefix("driver=")
        return [
            *self.machine(shape),
            "-chardev",
            f"socket,id=device,path={path}",
            "-device",
            "pcie-root-port,id=port1,chassis=1,slot=1",
            "-device",
            device,
            "-qmp",
            f"unix:{folder}/qmp,server=on,wait=off",
        ]

    def control(self, folder):
        """Returns a client of its control socket."""
        return Qmp(os.path.join(folder, "qmp"))

    def keep_on_reboot(self, folder, keeps):
        """Says whether a guest that reboots stays in its process, or ends that."""
        control = self.control(folder)
        control.do("set-action", reboot="reset" if keeps else "shutdown")
        control.close()

    def read_all(self, guest, folder, limit):
        """Reads a guest's memory itself, since the kernel there doesn't let /dev/mem have it."""
        self.control(folder).do("pmemsave", val=0, size=guest.memory << 20, filename="/dev/null")
        return 0, []


class QemuProxy(Emulator):
    """QEMU whose device is a PCI function in another process: its messages come by a pair of
    sockets."""

    backend = "pci_proxy_balloon"
    forms, has_control = ("messages",), False
    devices, debian = ("x-pci-proxy-dev",), "bookworm"
    # Interrupts don't come without KVM: the guest looks for them by itself.
    kernel_words = ("console=ttyS0", "irqpoll", "nolapic_timer", "nohz=off")

    def find(self):
        """Returns the words that begin a command of QEMU, and the device; says where a driver would
        end QEMU by a signal."""
        found, device = super().find()
        said = subprocess.run([*found, "--version"], capture_output=True, text=True).stdout
        version = re.search(r"version (\d+)\.[\d.]+", said)
        if version and int(version[1]) > LAST_PROXY:
            raise Missing(
                f"{found[0]} is of {version[0]}, whose {device} ends by a signal: QEMU 7 to "
                f"{LAST_PROXY} is wanted, or --vmm qemu"
            )
        return found, device

    def accelerator(self):
        """Returns QEMU's word for its own emulation."""
        return "tcg"

    def connect(self, _):
        """Returns what the backend and the guest are told of each other, and their files."""
        ends = socket.socketpair()
        return tuple((str(it.fileno()), (it,)) for it in ends)

    def words(self, _, shape, number):
        """Returns the guest's command."""
        return [*self.machine(shape), "-device", f"{self.device},id=balloon,fd={number}"]

    def control(self, _):
        """Nobody tells it to act."""
        return None


VMMS = {"uml": Uml, "qemu": Qemu, "qemu-proxy": QemuProxy}


def vmm_of(name, folder, suite=None):
    """Returns what makes guests of this VMM, with the kernel of this machine's Debian, or of
    another one."""
    if name not in VMMS:
        raise Fault(f"{name!r} is no VMM: {', '.join(VMMS)}")
    return VMMS[name](folder, suite)
