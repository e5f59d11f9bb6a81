"""What tools/release makes all of: the files of a committed tree, its version, and what was proved
of it."""

import os
import re
import shutil
import subprocess

from linux_packages import ROOT, Fault, last_line
from release_marks import gate_of

# What the Rust crate has for tests in C, which aren't installed.
TESTS_IN_C = "ctests/"


def said(words, **options):
    """Returns what a command printed, or says why it failed."""
    ran = subprocess.run(words, capture_output=True, text=True, **options)
    if ran.returncode != 0:
        raise Fault(f"{' '.join(words[:3])}: {last_line(ran.stderr) or last_line(ran.stdout)}")
    return ran.stdout


def read(path):
    """Returns a file's text."""
    with open(os.path.join(ROOT, path), encoding="utf-8") as file:
        return file.read()


def write(path, text):
    """Writes a file, and the folders above it."""
    os.makedirs(os.path.dirname(path), exist_ok=True)
    with open(path, "w", encoding="utf-8") as file:
        file.write(text)


def copy(source, path, mode=0o644):
    """Copies a file, and makes the folders above it."""
    os.makedirs(os.path.dirname(path), exist_ok=True)
    shutil.copyfile(source, path)
    os.chmod(path, mode)


def listed(folder):
    """Returns the tree's files below a folder that git knows, by their names from there."""
    names = said(["git", "ls-files", "-z", "--", folder], cwd=ROOT).split("\0")
    return [os.path.relpath(it, folder) for it in names if it]


def copy_listed(folder, path):
    """Copies a folder of the tree, but empty files: tools/conform takes what isn't there for
    empty."""
    for name in listed(folder):
        if not name.startswith(TESTS_IN_C) and os.path.getsize(os.path.join(ROOT, folder, name)):
            copy(os.path.join(ROOT, folder, name), os.path.join(path, name))


def settle(root, date):
    """Gives each file and folder below a root one date, and modes that hang on no mask."""
    for folder, _, names in os.walk(root, topdown=False):
        for name in names:
            path = os.path.join(folder, name)
            os.chmod(path, 0o755 if os.access(path, os.X_OK) else 0o644)
            os.utime(path, (date, date))
        os.chmod(folder, 0o755)
        os.utime(folder, (date, date))


class Tree:
    """What all of a release is made of."""

    def __init__(self, gate):
        changed = said(["git", "status", "--porcelain"], cwd=ROOT).splitlines()
        if changed:
            raise Fault(
                f"the tree isn't that of a commit, of which a release is made: {changed[0].strip()}"
            )
        self.number = read("VERSION").strip()
        self.commit = said(["git", "rev-parse", "HEAD"], cwd=ROOT).strip()
        self.date = int(said(["git", "log", "-1", "--format=%ct"], cwd=ROOT))
        self.gate = gate_of(gate, listed(".")) if gate else ""
        # What a release without the gate's last line is called, in names of files and as a Debian
        # package.
        self.name = self.number if gate else f"{self.number}-unproved"
        self.debian = self.number if gate else f"{self.number}~unproved"

    def filled(self, text, prefix="", libdir=""):
        """Returns a template's text for this release."""
        for name, value in (("VERSION", self.number), ("PREFIX", prefix), ("LIBDIR", libdir)):
            text = text.replace(f"@{name}@", value)
        return text


def contracts():
    """Returns the names of each crate's public functions that have a contract."""
    found = []
    for crate in re.findall(r"(?m)^(\w+)[^:#\n]*:", read("crates.txt")):
        names = []
        for path in listed(f"crates/{crate}/src"):
            if path.endswith(".rt") and not path.startswith("tests"):
                text = read(f"crates/{crate}/src/{path}")
                names += re.findall(
                    r"(?m)^ *pub (?:extern \"C\" )?fn (\w+)[^{]*?\n\s+ensures", text
                )
        found.append(f"  {crate}: {', '.join(sorted(set(names))) or 'tests alone'}")
    return found


UNPROVED = """unproved: no gate's last line was given. The kit had proved what it built, libvb.a and
vb_sim; no proof from nothing, no test and no must-fail edit was tried for this release"""


def proved(tree, others):
    """Returns the text of PROVED, where a release has these others besides the library and
    vb_sim."""
    kit = said(["rt", "version"]).strip()
    lines = [
        f"Bigvasta {tree.name}",
        "",
        f"commit: {tree.commit}",
        f"kit: {kit}",
        f"gate: {tree.gate or UNPROVED}",
        "",
        (
            "Each function of the crates that has a body is proved to meet its contract. Public "
            "functions with a clause that says"
        ),
        "what they give or leave:",
        *contracts(),
        "",
        f"Not proved: {', '.join(others)}; the compilers and the C library, which are trusted.",
    ]
    return "\n".join(lines) + "\n"
