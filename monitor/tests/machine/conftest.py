"""A machine with systemd and cgroups of the second version, which is booted once, with this tree's
programs in it."""

import os
import subprocess
import sys

import pytest
from debian_machine import Machine
from linux_kit import ROOT, built
from linux_packages import last_line
from installed import older_program

# What tests there have of this tree.
SOURCES = ("monitor/tests", "client", "pytest.ini")


@pytest.fixture(scope="session")
def package(tmp_path_factory):
    """A folder with the package of a host, and in one line why it isn't there; nothing where it
    is."""
    folder = str(tmp_path_factory.mktemp("package"))
    made = subprocess.run(
        [sys.executable, f"{ROOT}/tools/package-host", folder], capture_output=True, text=True
    )
    return folder, last_line(made.stderr) if made.returncode != 0 else ""


@pytest.fixture(scope="session")
def files(request):
    """What comes with the machine, by where it is there: sources, the programs of a host, those of
    an older version, and the package; or the sources, and programs that are wrong."""
    sources = {f"source/{it}": os.path.join(ROOT, it) for it in SOURCES}
    if request.config.getoption("--wrong") is not None:
        return sources | {"programs": os.path.dirname(built("wrong-plain/vhost_user_host"))}
    package = request.getfixturevalue("package")[0]
    return sources | {
        "programs": os.path.dirname(built("plain/vhost_user_host")),
        "older": os.path.dirname(older_program()),
        "package": package,
    }


@pytest.fixture(scope="session")
def machine(tmp_path_factory, files):
    """The machine."""
    with Machine(str(tmp_path_factory.mktemp("machine")), files) as it:
        yield it
