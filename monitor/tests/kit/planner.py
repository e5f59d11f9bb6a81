"""What the suites of the planner have in common: the library as a program of Python loads it, and
the command `bigvasta plan`."""

import os
import subprocess

import linux_kit
import pytest
from bigvasta.plan import library as loading
from waiting import PATIENCE

CLIENT = os.path.join(linux_kit.ROOT, "client")


@pytest.fixture(scope="session")
def shared():
    """The path of libvb.so, over the library or the plain implementation."""
    return linux_kit.built("libvb.so")


@pytest.fixture(scope="session")
def library(shared):
    """The library's calls."""
    return loading.load(shared)


def words_of(*words, path=CLIENT):
    """Returns the command, and its environment."""
    return ["/usr/bin/python3", "-B", "-m", "bigvasta", "plan", *words], {
        **os.environ,
        "PYTHONPATH": path,
    }


def run(*words, status=0, path=CLIENT, limit=PATIENCE):
    """Runs the command; returns what it printed, or the line that it says where it refuses."""
    command, environment = words_of(*words, path=path)
    ran = subprocess.run(command, capture_output=True, text=True, timeout=limit, env=environment)
    assert ran.returncode == status, ran
    assert ran.stdout == "" or not status
    return ran.stderr if status else ran.stdout
