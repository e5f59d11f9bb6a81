"""Something that a process of its own does beside a test."""

import contextlib
import json
import os
import select
import traceback


def keep_alone(files):
    """Closes all files but these: else what the test closes would stay open here."""
    for file in map(int, os.listdir("/proc/self/fd")):
        if file not in files:
            with contextlib.suppress(OSError):
                os.close(file)


def do(act, files, writes):
    """Does it with these files alone, and writes that it begins, and its numbers; returns the
    status of the process that does so."""
    try:
        keep_alone({0, 1, 2, writes, *files})
        os.write(writes, json.dumps(act(lambda: os.write(writes, b"\n"))).encode())
    except BaseException:
        traceback.print_exc()
        return 1
    return 0


class Aside:
    """What a process does that has these files of the test's. It calls what it is given once all is
    ready for it, and returns numbers."""

    def __init__(self, act, files=()):
        self.reads, writes = os.pipe()
        self.child = os.fork()
        if self.child == 0:
            os._exit(do(act, files, writes))
        os.close(writes)
        os.read(self.reads, 1)

    def is_set(self):
        """Whether it has ended: so that who waits for an event may wait for that."""
        return bool(select.select([self.reads], [], [], 0)[0])

    def numbers(self):
        """Waits for its end; returns its numbers."""
        said = os.read(self.reads, 1000)
        os.close(self.reads)
        _, status = os.waitpid(self.child, 0)
        assert status == 0, "what continues beside the test has failed"
        return json.loads(said)
