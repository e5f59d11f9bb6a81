"""The packages of 0.1.0, which are upgraded: made by the tools of its own commits, over the
library's plain implementation."""

import glob
import os
import subprocess
import sys
import tempfile

from linux_kit import ROOT, Fault
from release_tree import said

# The first commit of 0.1.0, whose daemons are in the package `bigvasta`; and the last one, which
# has a package of a host with its service.
WITH_DAEMONS, WITH_SERVICE = "9d1078bca0363b7b8116b664ce2364310affab32", "8ca96150"

# What makes the packages of the first commit, in its folder: the files of a package hang on neither
# the proof nor the simulator.
MAKE_FIRST = """
import importlib.machinery, shutil, subprocess, sys
sys.path.insert(0, "tools")
release = importlib.machinery.SourceFileLoader("release", "tools/release").load_module()

def build_library(machine, room):
    objects, library = f"{room}/reference.o", f"{room}/libvb-{machine}.a"
    words = ["-O2", "-I", "monitor", "-I", release.HEADERS, "-c", "-o", objects]
    subprocess.run(["cc", *words, "monitor/reference.c"], check=True)
    subprocess.run(["ar", "rc", library, objects], check=True)
    return library

release.build_library = build_library
release.simulator = lambda: shutil.copy("/bin/true", "vb_sim")
release.make_archive = lambda *_: None
release.proved = lambda tree: f"Bigvasta {tree.version}, for a test\\n"
release.release(sys.argv[1], None)
"""


def make(commit, words, out):
    """Makes packages in a copy of the tree at a commit, by these words, and returns the paths of
    what is in a folder then."""
    with tempfile.TemporaryDirectory(prefix="older-") as room:
        tree = f"{room}/tree"
        if (
            subprocess.run(
                ["git", "cat-file", "-e", f"{commit}^{{commit}}"], cwd=ROOT, capture_output=True
            ).returncode
            != 0
        ):
            raise Fault(
                f"the commit {commit[:8]} isn't there, of which packages of 0.1.0 are made: fetch "
                "the whole history"
            )
        said(["git", "clone", "-q", "--shared", "--no-checkout", ROOT, tree])
        said(["git", "-C", tree, "checkout", "-q", commit])
        said(words, cwd=tree)
    return sorted(glob.glob(f"{out}/*.deb"))


def packages_with_daemons(out):
    """Makes libvb-dev and bigvasta, and returns their paths."""
    return make(WITH_DAEMONS, [sys.executable, "-B", "-c", MAKE_FIRST, out], out)


def package_with_service(out):
    """Makes bigvasta-host, and returns its path."""
    os.makedirs(out, exist_ok=True)
    return make(WITH_SERVICE, ["tools/package-host", out, "monitor/reference/reference.c"], out)
