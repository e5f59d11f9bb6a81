"""A host whose changes last."""

import shutil

from hosts import Host
from waiting import patience_from_now

MIB = 1 << 20

FILE = """[host]
folder = {folder}
budget = 480M

[guest web-1]
most = 100M

[guest web-2]
"""


class Kept:
    """A host whose changes last in a folder."""

    def __init__(self, program, folder):
        self.program, self.folder = program, folder
        self.state, self.file = folder / "state", folder / "host.conf"
        self.state.mkdir(mode=0o700)
        self.file.write_text(FILE.format(folder=folder))
        self.changes = self.state / "changes.conf"
        self.host = None

    def start(self, *words):
        """Starts it; returns the host."""
        options = ("--config", str(self.file), "--state", str(self.state))
        self.host = Host(self.program, self.folder, *options, *words)
        assert self.host.lines.next(patience_from_now()) == "ready", self.host.said()
        return self.host

    def again(self):
        """Ends it with all that a reboot would take, and starts it."""
        assert self.host.end() == 0
        for path in self.folder.iterdir():
            if path.name.startswith((".", "=")):
                path.unlink() if path.is_symlink() or not path.is_dir() else shutil.rmtree(path)
        return self.start()


def each_tmpfs():
    """Returns where this machine has a tmpfs."""
    with open("/proc/self/mounts", encoding="utf-8") as lines:
        mounts = {folder: kind for _, folder, kind, *_ in map(str.split, lines)}
    return [folder for folder, kind in mounts.items() if kind == "tmpfs"]


def tmpfs():
    """Returns one of them, or None."""
    return next(iter(each_tmpfs()), None)


def terms(host):
    """Returns the terms of each guest, by its name."""
    return {it["name"]: it["terms"] for it in host.ask("status")["guests"]}
