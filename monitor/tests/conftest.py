"""What all suites have in common: their programs are built before the time of a test begins; and
programs that are wrong on purpose."""

import argparse
import os

import linux_kit
import pytest
from bigvasta.connection import Connection
from linux_vmms import VMMS
from waiting import PATIENCE

# A host on a busy machine answers who asks it in a test as late as that.
Connection.__init__.__defaults__ = (PATIENCE,)


def count(word):
    """Reads the number of --times."""
    number = int(word)
    if number < 1:
        raise argparse.ArgumentTypeError("at least once")
    return number


def pytest_addoption(parser):
    """The options of all suites."""
    parser.addoption(
        "--wrong",
        metavar="NAME",
        help="a program that is wrong on purpose, or all: what is for it has to refuse it",
    )
    parser.addoption(
        "--times", type=count, default=1, metavar="K", help="each run of a Linux k times"
    )
    parser.addoption("--hours", type=float, metavar="H", help="the run of a host for H hours alone")
    parser.addoption("--vmm", default="uml", choices=VMMS, help="what runs a Linux")
    parser.addoption(
        "--suite",
        metavar="NAME",
        help="another Debian, bookworm, trixie or sid: of its kernel; or of the QEMU of a guest "
        "that migrates, also of Ubuntu: questing, resolute, stonking",
    )


def is_chosen(item, wrong, hours):
    """Whether a test is of those that the command line asks for: that of hours, of this wrong
    program, or of none."""
    mark = item.get_closest_marker("wrong")
    if hours or item.get_closest_marker("hours"):
        return bool(hours and item.get_closest_marker("hours"))
    return wrong is None if mark is None else wrong in ("all", mark.args[0])


def pytest_collection_modifyitems(config, items):
    """Leaves out programs that are wrong where they aren't asked for; else all others."""
    wrong, hours = config.getoption("--wrong"), config.getoption("--hours")
    config.hook.pytest_deselected(items=[it for it in items if not is_chosen(it, wrong, hours)])
    items[:] = [it for it in items if is_chosen(it, wrong, hours)]
    if wrong and not items:
        raise pytest.UsageError(f"--wrong {wrong}: there is none")


def pytest_sessionstart(session):
    """Builds the programs of the suites that are run, which PROGRAMS of their conftest.py names;
    once, and not in each worker, nor where the environment names a program, or has each built as a
    test wants it."""
    plugins = session.config.pluginmanager.get_plugins()
    wanted = sorted({name for it in plugins for name in getattr(it, "PROGRAMS", ())})
    if (
        wanted
        and not hasattr(session.config, "workerinput")
        and not {"HOST_PROGRAM", "BACKEND_PROGRAM", "BUILD_LATER"} & set(os.environ)
    ):
        try:
            linux_kit.build(*wanted)
        except linux_kit.Fault as fault:
            pytest.exit(str(fault), returncode=2)
