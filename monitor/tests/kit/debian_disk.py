"""The disk of a machine of its own: a Debian 13 with systemd, a kernel with cgroups of the second
version, and what tests of a host want there. It is made once, in the cache of this repository, and
no machine writes to it."""

import glob
import hashlib
import os
import shutil
import subprocess
import sys
from typing import NamedTuple

from linux_packages import MIRROR, ROOT, Fault, Missing, last_line, need

SUITE = "trixie"
CACHE = os.path.join(ROOT, ".cache", "machine")

# What is installed there: the system, what a host's package wants, and what its tests want.
PACKAGES = (
    "linux-image-cloud-amd64",
    "systemd",
    "systemd-sysv",
    "dbus",
    "udev",
    "kmod",
    "libjansson4",
    "libinih1",
    "libsystemd0",
    "libseccomp2",
    "python3",
    "python3-prometheus-client",
    "python3-pytest",
    "python3-pytest-timeout",
)

# The port by which commands come, the folder of what comes with a machine on a disk of its own, and
# the program there that runs commands.
PORT, FOLDER = "commands", "/srv/machine"
AGENT = "source/monitor/tests/machine/agent.py"
UNIT = f"""[Unit]
Description=Runs the commands of tests

[Service]
ExecStartPre=/bin/mkdir -p {FOLDER}
ExecStartPre=/bin/tar -C {FOLDER} -xf /dev/vdb
ExecStart=/usr/bin/python3 -B {FOLDER}/{AGENT} /dev/virtio-ports/{PORT}
TimeoutStartSec=infinity

[Install]
WantedBy=multi-user.target
"""

# What a boot doesn't start: it would only take time.
UNWANTED = (
    "apt-daily.timer",
    "apt-daily-upgrade.timer",
    "dpkg-db-backup.timer",
    "fstrim.timer",
    "serial-getty@ttyS0.service",
    "getty@tty1.service",
)

# Bytes of the disk, most of which nothing is in; seconds in which its files are made.
SIZE, LIMIT = 2 << 30, 3600


class Disk(NamedTuple):
    """A disk, and what boots from it."""

    image: str
    kernel: str
    initramfs: str


def ran(words, what):
    """Runs a command that has to succeed."""
    try:
        made = subprocess.run(
            words, stdin=subprocess.DEVNULL, capture_output=True, text=True, timeout=LIMIT
        )
    except subprocess.TimeoutExpired as slow:
        raise Fault(f"{what}: it hangs, after {LIMIT} s") from slow
    if made.returncode != 0:
        raise Fault(f"{what}: {last_line(made.stderr) or made.returncode}")


def change(root):
    """Has a boot of this root start what runs commands, and nothing that isn't wanted."""
    units = f"{root}/etc/systemd/system"
    with open(f"{units}/commands.service", "w", encoding="utf-8") as file:
        file.write(UNIT)
    os.symlink("../commands.service", f"{units}/multi-user.target.wants/commands.service")
    for it in UNWANTED:
        os.symlink("/dev/null", f"{units}/{it}")
    for it in ("etc", "var"):
        # So that nothing is made again as for an update.
        with open(f"{root}/{it}/.updated", "w", encoding="utf-8"):
            pass


def make(folder):
    """Makes the files of a disk in a folder."""
    root = f"{folder}/root"
    words = [
        "mmdebstrap",
        "--quiet",
        "--variant=minbase",
        f"--include={','.join(PACKAGES)}",
        SUITE,
        root,
        f"deb {MIRROR} {SUITE} main",
    ]
    ran(words, "mmdebstrap")
    change(root)
    for kind in ("vmlinuz", "initrd.img"):
        shutil.copyfile(glob.glob(f"{root}/boot/{kind}-*")[0], f"{folder}/{kind}")
    with open(f"{folder}/image", "wb") as image:
        image.truncate(SIZE)
    ran(["mkfs.ext4", "-q", "-F", "-d", root, f"{folder}/image"], "mkfs.ext4")
    shutil.rmtree(root)


def demand_disk():
    """Says what a disk can't be made without, unless it is there."""
    if os.path.isdir(made_in()):
        return
    need("mmdebstrap", "mmdebstrap"), need("mkfs.ext4", "e2fsprogs")
    if os.geteuid() != 0:
        raise Missing("the root of a Debian is made by root: run it with sudo, once")


def made_in():
    """Returns the folder of the cache that has a disk of these packages and units, if it was
    made."""
    mark = hashlib.sha256(repr((PACKAGES, UNIT, UNWANTED, SIZE)).encode()).hexdigest()[:12]
    return os.path.join(CACHE, f"{SUITE}-{mark}")


def disk():
    """Returns the disk, which is made the first time."""
    folder = made_in()
    if not os.path.isdir(folder):
        part = f"{folder}.{os.getpid()}"
        os.makedirs(part)
        print(
            f"making the disk of a Debian of {SUITE}, once, in some minutes",
            file=sys.stderr,
            flush=True,
        )
        try:
            make(part)
            for older in glob.glob(f"{CACHE}/{SUITE}-*"):
                if not older.startswith(folder):
                    shutil.rmtree(older, ignore_errors=True)
            os.rename(part, folder)
        except OSError:
            if not os.path.isdir(folder):
                raise
            # Another run has made it meanwhile.
        finally:
            shutil.rmtree(part, ignore_errors=True)
    return Disk(*(os.path.join(folder, it) for it in ("image", "vmlinuz", "initrd.img")))
