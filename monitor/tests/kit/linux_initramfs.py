"""Makes the first files of a guest: its busybox, its script and the modules of its kernel."""

import lzma
import os
import stat

from linux_kit import MONITOR
from linux_packages import Fault

PACKED = ".xz"


def archive_entry(name, mode, data, number):
    """Returns one file of an archive as the kernel unpacks it (cpio, newc)."""
    words = (number, mode, 0, 0, 1, 0, len(data), 0, 0, 0, 0, len(name) + 1, 0)
    head = b"070701" + b"".join(b"%08X" % it for it in words) + name.encode() + b"\0"
    return head + bytes(-len(head) % 4) + data + bytes(-len(data) % 4)


def bytes_of(path):
    """Returns the bytes of a file; a module is compressed from Debian 13 on."""
    with (lzma.open if path.endswith(PACKED) else open)(path, "rb") as opened:
        return opened.read()


def make_initramfs(folder, busybox, modules):
    """Writes the guest's first files, all of them, and returns the archive's path."""
    sources = {"init": os.path.join(MONITOR, "tests/guest/init"), "bin/busybox": busybox}
    sources |= {os.path.basename(it).removesuffix(PACKED): it for it in modules}
    if "virtio_balloon.ko" not in sources:
        raise Fault("the kernel's package has no virtio_balloon.ko")
    entries = [(name, stat.S_IFDIR | 0o755, b"") for name in ("bin", "proc", "sys", "dev", "t")]
    entries += [(name, stat.S_IFREG | 0o755, bytes_of(source)) for name, source in sources.items()]
    entries.append(("TRAILER!!!", 0, b""))
    path = os.path.join(folder, "initramfs")
    with open(path, "wb") as archive:
        for number, entry in enumerate(entries, 1):
            archive.write(archive_entry(*entry, number))
    return path
