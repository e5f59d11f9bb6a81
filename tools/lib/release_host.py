"""What an operator of a host installs: the daemons, the client program, units, rules and pages."""

import os

from linux_kit import ROOT, make
from release_tree import copy, copy_listed, listed, read, write

DAEMONS = ("vhost_user_balloon", "vhost_user_host")
PAGES = ("vhost_user_balloon.1", "vhost_user_host.1", "bigvasta.1", "bigvasta-host.conf.5")
PACKAGING = os.path.join(ROOT, "packaging")

# Files of packaging, and where they are under a root; units, the user and the folder of sockets are
# put there by debhelper.
INSTALLED = (
    ("etc/host.conf", "etc/bigvasta/host.conf"),
    ("bash-completion/bigvasta", "usr/share/bash-completion/completions/bigvasta"),
    ("prometheus/bigvasta.rules.yml", "usr/share/doc/bigvasta-host/examples/bigvasta.rules.yml"),
    ("grafana/bigvasta.json", "usr/share/doc/bigvasta-host/examples/bigvasta.dashboard.json"),
    ("qemu/50-bigvasta-balloon.json", "usr/share/qemu/vhost-user/50-bigvasta-balloon.json"),
)
DOCUMENTS = ("docs/HOST.md", "docs/CONTROL.md", "docs/LINUX.md", "docs/PLANNING.md")


def build_installed(library, room):
    """Builds over a library what an operator runs: the daemons, and the library as the planner
    loads it; returns their paths. All are without symbols."""
    return make(
        room, *(f"plain/{it}" for it in DAEMONS), "libvb.so", O=room, VB_LIB=library, LIB=""
    )


def put_pages(tree, names, root):
    """Puts man pages under a root."""
    for page in names:
        write(
            f"{root}/share/man/man{page.rsplit('.', 1)[1]}/{page}",
            tree.filled(read(f"docs/man/{page}")),
        )


def put_client(root, modules):
    """Puts the client program under a root, and its modules into a folder there."""
    copy(os.path.join(ROOT, "client", "program"), f"{root}/bin/bigvasta", 0o755)
    for name in listed("client/bigvasta"):
        copy(os.path.join(ROOT, "client", "bigvasta", name), f"{root}/{modules}/bigvasta/{name}")


def stage_host(tree, installed, root):
    """Puts what bigvasta-host has under a root, but for PROVED."""
    *daemons, planned = installed
    copy(planned, f"{root}/usr/lib/bigvasta/libvb.so")
    for daemon in daemons:
        copy(daemon, f"{root}/usr/bin/{os.path.basename(daemon)}", 0o755)
    put_client(f"{root}/usr", "lib/python3/dist-packages")
    copy(f"{ROOT}/client/libvirt-hook", f"{root}/etc/libvirt/hooks/qemu.d/bigvasta", 0o755)
    put_pages(tree, PAGES, f"{root}/usr")
    for source, target in INSTALLED:
        copy(os.path.join(PACKAGING, source), f"{root}/{target}")
    for document in DOCUMENTS:
        copy(
            os.path.join(ROOT, document),
            f"{root}/usr/share/doc/bigvasta-host/{os.path.basename(document)}",
        )


def put_service(root):
    """Puts units, the user, the configuration and the rules of alerts under a root, for who has no
    package."""
    copy_listed("packaging/systemd", f"{root}/systemd")
    for source, target in (
        ("sysusers.d", "sysusers.d"),
        ("tmpfiles.d", "tmpfiles.d"),
        ("etc", "etc"),
        ("prometheus", "prometheus"),
        ("grafana", "grafana"),
        ("qemu", "qemu"),
    ):
        copy_listed(f"packaging/{source}", f"{root}/{target}")
