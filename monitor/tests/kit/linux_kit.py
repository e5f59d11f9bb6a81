"""Has monitor/Makefile build daemons over the library, as they are installed or as tests want
them."""

import fcntl
import os
import subprocess

from linux_packages import ROOT, Fault, Missing, need

MONITOR = os.path.join(ROOT, "monitor")
SHIM = os.path.join(MONITOR, "include")
HEADERS = os.path.join(ROOT, "crates/vb_c")
LIBRARY = os.path.join(ROOT, "crates", "vb_c", "out", "libvb_c.a")
REFERENCE = os.path.join(MONITOR, "out", "reference", "libvb_c.a")
FLAGS = ("-std=c11", "-O2", "-Wall", "-Wextra", "-Werror")


def demand(condition, words):
    """Ends the run with these words where the condition doesn't hold."""
    if not condition:
        raise Fault(words)


def is_reference():
    """Whether the plain implementation is in the library's place, which isn't proved."""
    return os.environ.get("LIB") == "reference"


def choose(reference):
    """Has the plain implementation decide from now on, where it is asked for."""
    if reference:
        os.environ["LIB"] = "reference"


def make(folder, *names, **words):
    """Makes files of this folder of monitor's by the Makefile, one run at a time, and returns their
    paths."""
    need("cc", "gcc libc6-dev")
    paths = [os.path.join(folder, it) for it in names]
    command = [
        need("make", "make"),
        "-s",
        f"-j{os.cpu_count()}",
        "-C",
        MONITOR,
        *(f"{name}={value}" for name, value in words.items()),
        *paths,
    ]
    os.makedirs(os.path.join(MONITOR, "out"), exist_ok=True)
    with open(os.path.join(MONITOR, "out", "lock"), "w", encoding="ascii") as lock:
        fcntl.flock(lock, fcntl.LOCK_EX)
        ran = subprocess.run(
            command,
            capture_output=True,
            text=True,
            env={name: it for name, it in os.environ.items() if name != "MAKEFLAGS"},
        )
    missing = [it for it in ran.stderr.splitlines() if it.startswith("monitor: ")]
    if missing:
        raise Missing(missing[0].removeprefix("monitor: "))
    demand(ran.returncode == 0, f"monitor isn't built:\n{ran.stderr.strip()}")
    return [os.path.join(MONITOR, it) for it in paths]


def core_of():
    """Returns the library that decides: the proved one, or the plain implementation."""
    if is_reference():
        return make("out/reference", "libvb_c.a")[0]
    path = os.path.abspath(os.environ.get("VB_LIB", LIBRARY))
    if not os.path.exists(path):
        where = os.path.relpath(path, ROOT)
        raise Missing(
            f"{where} isn't there: rt lib in crates/vb_c makes it, VB_LIB=FILE names another, "
            "LIB=reference does without"
        )
    return path


def build(*names):
    """Builds programs, KIND/NAME, or libvb.so over the library that decides, and returns their
    paths. The Makefile has each kind; a host's program comes with that of its guests' processes."""
    core = core_of()
    return (
        make("out/reference", *names)
        if is_reference()
        else make("out/library", *names, VB_LIB=core)
    )


def built(name):
    """Returns the path of one of these."""
    return build(name)[0]
