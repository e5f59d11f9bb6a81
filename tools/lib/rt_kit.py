"""The kit's command rt as a module, and the names of a crate's must-fail edits."""

import importlib.machinery
import importlib.util
import os
import shutil
import sys


def load(tool):
    """Loads rt, for the tool of this name, which ends where there is none."""
    path = os.path.realpath(shutil.which("rt") or sys.exit(f"{tool}: there is no rt on the path"))
    sys.path.insert(0, os.path.dirname(path))
    loader = importlib.machinery.SourceFileLoader("rt", path)
    spec = importlib.util.spec_from_loader("rt", loader)
    module = importlib.util.module_from_spec(spec)
    loader.exec_module(module)
    return module


def edits_in(crate):
    """Returns the names of the crate's edits, in the order in which they are tried."""
    folder = f"crates/{crate}/must-fail"
    return (
        sorted(it for it in os.listdir(folder) if it.endswith(".edit"))
        if os.path.isdir(folder)
        else []
    )
