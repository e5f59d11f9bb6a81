"""What qemu-bigvasta-balloon has: the device's module, by the headers of a Debian's QEMU, the
program that preloads it, and their pages."""

import os
import re
import tempfile

from linux_packages import ROOT
from release_debian import make_packages
from release_host import put_pages
from release_tree import Tree, copy, read, write

PACKAGE, PROGRAM = "qemu-bigvasta-balloon", "qemu-system-x86_64-balloon"

# Where the program has its module in this repository, and in the package.
BUILT = '$(dirname "$(realpath "$0")")/../../.cache/qemu-balloon/trixie/vhost-user-balloon.so'
MODULE = "/usr/lib/bigvasta/vhost-user-balloon.so"
DOCUMENTS = ("docs/LINUX.md", "monitor/examples/domain.xml")


def wanted_qemu(version):
    """Returns on which packages a module depends that was built by the headers of this one: on
    those whose QEMU has the same first two numbers, which the module itself demands."""
    epoch, major, minor = re.match(r"(\d+:)(\d+)\.(\d+)\.", version).groups()
    least, beyond = f"{epoch}{major}.{minor}~", f"{epoch}{major}.{int(minor) + 1}~"
    return f"qemu-system-x86 (>= {least}), qemu-system-x86 (<< {beyond})"


def stage_qemu(tree, module, root):
    """Puts what the package has under a root."""
    copy(module, f"{root}{MODULE}")
    program = f"{root}/usr/bin/{PROGRAM}"
    write(program, read(f"integration/qemu/{PROGRAM}").replace(BUILT, MODULE))
    os.chmod(program, 0o755)
    put_pages(tree, (f"{PROGRAM}.1",), f"{root}/usr")
    for document in DOCUMENTS:
        copy(
            os.path.join(ROOT, document),
            f"{root}/usr/share/doc/{PACKAGE}/{os.path.basename(document)}",
        )


def package_qemu(module, version, out):
    """Makes the package of a module that was built for this version of Debian's QEMU, in a folder;
    returns its path."""
    tree = Tree(None)
    os.makedirs(out, exist_ok=True)
    with tempfile.TemporaryDirectory(prefix="qemu-balloon-") as room:
        debian = os.path.join(room, "bigvasta")
        stage_qemu(tree, module, f"{debian}/stage/{PACKAGE}")
        write(f"{debian}/stage/{PACKAGE}.substvars", f"qemu:Depends={wanted_qemu(version)}\n")
        return make_packages(tree, debian, (PACKAGE,), out)[0]
