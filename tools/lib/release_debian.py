"""Makes Debian packages, by debhelper, of folders that have what each package has: with a changelog
and a copyright."""

import email.utils
import glob
import os
import re
import shutil
import textwrap
import time

from linux_kit import ROOT, need
from release_tree import read, said, settle, write

# Nobody reads mail there: `.invalid` is the name that is kept for that.
MAINTAINER = "The authors of Bigvasta <maintainers@bigvasta.invalid>"
UNPROVED = " This build is unproved: no gate's last line was given, as PROVED says.\n"

# Where debhelper looks for units, the user and the folder of sockets.
SERVICE = (
    ("systemd/bigvasta-host.service", "bigvasta-host.bigvasta-host.service"),
    ("systemd/bigvasta-metrics.service", "bigvasta-host.bigvasta-metrics.service"),
    ("sysusers.d/bigvasta.conf", "bigvasta-host.sysusers"),
    ("tmpfiles.d/bigvasta.conf", "bigvasta-host.tmpfiles"),
)


def one_line(text):
    """Returns a text without line ends."""
    return " ".join(text.split())


def changelog(tree):
    """Returns Debian's changelog: what CHANGELOG.md has in bold, by version, in lines as Debian
    wants them."""
    bold = re.findall(
        r"(?ms)^- \*\*(.*?)\*\*",
        read("CHANGELOG.md").split(f"\n## {tree.number}\n")[1].split("\n## ")[0],
    )
    lines = [
        f"bigvasta ({tree.debian}) unstable; urgency=medium",
        "",
        *(textwrap.fill(f"  * {it}.", 78, subsequent_indent="    ") for it in map(one_line, bold)),
        "",
    ]
    date = email.utils.formatdate(tree.date)
    return "\n".join([*lines, f" -- {MAINTAINER}  {date}"]) + "\n"


def copyright_of(tree):
    """Returns Debian's copyright. There is no licence, and it says so."""
    year = time.gmtime(tree.date).tm_year
    return "\n".join(
        (
            "Format: https://www.debian.org/doc/packaging-manuals/copyright-format/1.0/",
            "Upstream-Name: Bigvasta",
            "",
            "Files: *",
            f"Copyright: {year} The authors of Bigvasta",
            "License: none",
            (
                " No licence is chosen yet: nothing here says that anybody but the authors may "
                "copy, change or hand on these files."
            ),
            "",
        )
    )


def put_debian(tree, room):
    """Puts the folder that debhelper works by beside the folders of the packages."""
    debian = os.path.join(room, "debian")
    shutil.copytree(os.path.join(ROOT, "packaging", "debian"), debian)
    for source, target in SERVICE:
        shutil.copyfile(os.path.join(ROOT, "packaging", source), os.path.join(debian, target))
    write(f"{debian}/changelog", changelog(tree))
    write(f"{debian}/copyright", copyright_of(tree))
    if not tree.gate:
        paragraphs = [it.rstrip("\n") for it in read("packaging/debian/control").split("\n\n")]
        write(
            f"{debian}/control",
            "\n\n".join(
                [
                    f"{it}\n{UNPROVED}".rstrip("\n") if "PROVED among" in it else it
                    for it in paragraphs
                ]
            )
            + "\n",
        )


def make_packages(tree, room, names, out):
    """Makes these packages of the folders `stage/NAME` in a room, and returns their paths."""
    for it in ("dpkg-buildpackage", "dh", "dh_python3"):
        need(it, "dpkg-dev debhelper dh-python")
    put_debian(tree, room)
    settle(os.path.join(room, "stage"), tree.date)
    chosen = " ".join(f"-p{it}" for it in names)
    environment = {
        **os.environ,
        "SOURCE_DATE_EPOCH": str(tree.date),
        "DH_OPTIONS": chosen,
        "DEB_BUILD_OPTIONS": "nocheck",
    }
    said(
        [
            "dpkg-buildpackage",
            "--build=binary",
            "--unsigned-changes",
            "--unsigned-buildinfo",
            "--no-check-builddeps",
        ],
        cwd=room,
        env=environment,
    )
    found = sorted(glob.glob(f"{os.path.dirname(room)}/*.deb"))
    return [shutil.move(it, out) for it in found]
