"""The programs of a host as they are installed, in two versions, and the operator's command."""

import os
import shutil
import subprocess

import linux_kit
from waiting import PATIENCE

CLIENT = os.path.join(linux_kit.ROOT, "client")

# The version of the older programs, as monitor/Makefile has it.
OLDER = "0.1.9"


def version():
    """Returns the version of this tree."""
    with open(os.path.join(linux_kit.ROOT, "VERSION"), encoding="utf-8") as file:
        return file.read().strip()


def older_program():
    """Builds the programs of a host as they were in an older version; returns the path of the
    host's."""
    return linux_kit.built("older/vhost_user_host")


def install(program, folder):
    """Puts the programs of a host in the place of those that are there; returns the path of the
    host's."""
    os.makedirs(folder, exist_ok=True)
    for name in ("vhost_user_host", "vhost_user_balloon"):
        shutil.copy(os.path.join(os.path.dirname(program), name), f"{folder}/{name}.new")
        os.rename(f"{folder}/{name}.new", f"{folder}/{name}")
    return f"{folder}/vhost_user_host"


def bigvasta(control, *words, limit=PATIENCE, **options):
    """Runs the client program; returns what came of it."""
    return subprocess.run(
        ["/usr/bin/python3", "-B", "-m", "bigvasta", *words],
        capture_output=True,
        text=True,
        timeout=limit,
        env={
            **os.environ,
            "PYTHONPATH": CLIENT,
            "BIGVASTA_CONTROL": control,
            "LC_ALL": "C.UTF-8",
            **options,
        },
    )
