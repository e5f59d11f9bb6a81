"""Which tests see a file of the daemons or of the client program: a table that is made of the
programs' parts, of includes and imports, and of what each suite builds."""

import functools
import glob
import os
import re
import subprocess
import sys

from linux_kit import MONITOR
from linux_packages import ROOT
from suites import SUITES

# Suites that build daemons and need no Linux, and those of the planner; the tests in C of the
# headers, which make runs.
ASKED, PLANNED = ("vhost-user", "pci-proxy", "control", "host"), ("plan", "fleet")
C_TESTS = ("make", "-C", "monitor", "c-test", "LIB=reference", "NOTICES=30000", "DAYS=10000")
BACKENDS, CLIENT = "monitor/backends/", "client/"


def read(path):
    """Returns a file's text."""
    with open(os.path.join(ROOT, path), encoding="utf-8") as file:
        return file.read()


def said_by_make(command):
    """Returns the lines that a command says with the words of monitor's Makefile."""
    words = ["make", "-s", "-C", MONITOR, "--eval", f"say: ; @{command}", "say"]
    return subprocess.run(words, capture_output=True, text=True, check=True).stdout.splitlines()


@functools.cache
def parts():
    """Returns the parts of each daemon."""
    lines = said_by_make("$(foreach it,$(DAEMONS),echo $(it) $(PARTS_$(it));)")
    return {name: [f"{BACKENDS}{it}.c" for it in its] for name, *its in map(str.split, lines)}


@functools.cache
def flags():
    """Returns what a part is compiled with, in monitor's folder."""
    return said_by_make("echo $(CFLAGS) $(LINUX)")[0].split()


def shipped():
    """Returns the files that are shipped, by their names from the top: parts of daemons, the
    headers, the modules of the client program."""
    patterns = (
        f"{MONITOR}/backends/**/*.h",
        f"{MONITOR}/include/balloon*.h",
        f"{ROOT}/client/bigvasta/**/*.py",
    )
    others = {
        os.path.relpath(it, ROOT)
        for pattern in patterns
        for it in glob.glob(pattern, recursive=True)
    }
    return sorted(
        {it for its in parts().values() for it in its}
        | {it for it in others if not it.endswith(".h") or sources_of(it)}
    )


@functools.cache
def included(path):
    """Returns the headers of this repository that a file includes, and those that these do."""
    found = set()
    for name in re.findall(r'(?m)^#include "(.*)"', read(path)):
        for folder in (os.path.dirname(path), "monitor/include"):
            its = os.path.normpath(f"{folder}/{name}")
            if os.path.exists(os.path.join(ROOT, its)):
                found |= {its} | included(its)
    return found


@functools.cache
def sources_of(path):
    """Returns the parts of daemons that are made of a file: itself, or those that include it."""
    its = sorted({it for its in parts().values() for it in its})
    return [it for it in its if path == it or path in included(it)]


def programs_of(path):
    """Returns the daemons that have a part that is made of a file."""
    return {name for name, its in parts().items() if set(its) & set(sources_of(path))}


@functools.cache
def tests_of(suite):
    """Returns the files of a suite with tests, and their texts."""
    return {
        os.path.relpath(it, ROOT): read(it)
        for it in sorted(glob.glob(f"{ROOT}/{SUITES[suite].words[0]}/test_*.py"))
    }


@functools.cache
def built_by(suite):
    """Returns the daemons that a suite builds: of its conftest.py's PROGRAMS, and with a host's
    that of its guests' processes."""
    found = (
        set(re.findall(r'"[\w-]+/(\w+)"', read(f"{SUITES[suite].words[0]}/conftest.py")))
        & parts().keys()
    )
    return found | ({"vhost_user_balloon"} if "vhost_user_host" in found else set())


def mentions(text, path):
    """Returns how often a test speaks of a file: by its name, and ten times as much where it
    imports it."""
    stem = os.path.splitext(os.path.basename(path))[0]
    names = path.removeprefix(CLIENT).removesuffix(".py").split("/")
    imports = (
        rf"(?m)^from {'.'.join(names)} import|^from {'.'.join(names[:-1])} import .*\b{names[-1]}\b"
    )
    return len(re.findall(rf"\b{stem}\b", text)) + (
        10 * len(re.findall(imports, text)) if path.startswith(CLIENT) else 0
    )


def suites_of(path):
    """Returns the suites that see a file, the narrowest first: that of its folder, then those that
    build the least, and those that speak most of it."""

    def spoken(suite):
        return sum(mentions(text, path) for text in tests_of(suite).values())

    if path.startswith(CLIENT):
        is_planner = "/plan/" in path or path.endswith("commands/plan.py")
        return sorted(PLANNED, key=lambda it: -spoken(it)) if is_planner else ["control", "plan"]
    programs, folder = programs_of(path), os.path.basename(os.path.dirname(path))
    found = [it for it in ASKED if programs & built_by(it)]
    return sorted(
        found,
        key=lambda it: (
            it != folder,
            sum(len(parts()[each]) for each in built_by(it)),
            -spoken(it),
        ),
    )


def commands_of(path):
    """Returns the commands that try a file, the narrowest first: the tests of its name, and then
    those that speak most of it. Tests that take so long that they have a limit of their own come
    last."""
    commands = [C_TESTS] if path.startswith("monitor/include/") else []
    own = f"test_{os.path.splitext(os.path.basename(path))[0]}.py"
    for suite in suites_of(path):
        files = sorted(
            tests_of(suite),
            key=lambda it: (
                "pytest.mark.timeout(" in tests_of(suite)[it],
                os.path.basename(it) != own,
                -mentions(tests_of(suite)[it], path),
            ),
        )
        at_once = ("-n", "2") if "-n" in SUITES[suite].words else ()
        commands.append(
            (
                sys.executable,
                "-m",
                "pytest",
                "-x",
                "-q",
                *at_once,
                *(it for it in files if not it.endswith("test_runs.py")),
            )
        )
    return commands
