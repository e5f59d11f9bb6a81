"""A FUSE file system of one file, `file`, whose FLUSH is withheld: who closes it waits, until the
end of standard input.

    withheld.py FOLDER

It says `ready` once it is mounted. Debian: `apt-get install python3-fusepy`.
"""

import errno
import os
import stat
import sys
import threading

from fusepy import FUSE, FuseOSError, Operations

SIZE = 1 << 20


class Withheld(Operations):
    """The file system; its methods have the names of FUSE's."""

    def __init__(self):
        self.released = threading.Event()
        threading.Thread(target=self.await_end, daemon=True).start()

    def await_end(self):
        """Waits for the end of standard input."""
        os.read(0, 1)
        self.released.set()

    def init(self, path):
        print("ready", flush=True)

    def getattr(self, path, fh=None):
        if path == "/":
            return {"st_mode": stat.S_IFDIR | 0o755, "st_nlink": 2}
        if path == "/file":
            return {"st_mode": stat.S_IFREG | 0o644, "st_nlink": 1, "st_size": SIZE}
        raise FuseOSError(errno.ENOENT)

    def read(self, path, size, offset, fh):
        return bytes(max(0, min(size, SIZE - offset)))

    def write(self, path, data, offset, fh):
        return len(data)

    def flush(self, path, fh):
        self.released.wait()
        return 0


if __name__ == "__main__":
    FUSE(Withheld(), sys.argv[1], foreground=True)
