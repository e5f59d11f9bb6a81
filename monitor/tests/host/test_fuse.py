"""A client's files on a file system of its own, which withholds the answer to a close: its own
guest's process waits for it, and nobody else."""

import importlib.util
import os
import struct
import subprocess
import sys

import pytest
from delays import MOST_DELAY
from tenants import process_of, status_of
from vhost_client import (
    ADD_MEM_REG,
    GET_FEATURES,
    OFFERED,
    SET_BACKEND_REQ_FD,
    SET_MEM_TABLE,
    SET_VRING_CALL,
    SET_VRING_KICK,
    Client,
)
from waiting import PATIENCE

SIZE, USER = 1 << 20, 1 << 40

# Messages with a file; the last one takes none.
MESSAGES = {
    "memory": (SET_MEM_TABLE, struct.pack("<IIQQQQ", 1, 0, 0, SIZE, USER, 0)),
    "region": (ADD_MEM_REG, struct.pack("<QQQQQ", 0, 0, SIZE, USER, 0)),
    "kick": (SET_VRING_KICK, bytes(8)),
    "call": (SET_VRING_CALL, bytes(8)),
    "channel": (SET_BACKEND_REQ_FD, b""),
    "no file": (GET_FEATURES, b""),
}


class Mounted:
    """A file system that withholds FLUSH."""

    def __init__(self, folder):
        self.folder = folder
        words = [sys.executable, os.path.join(os.path.dirname(__file__), "withheld.py"), folder]
        self.process = subprocess.Popen(
            words, stdin=subprocess.PIPE, stdout=subprocess.PIPE, stderr=subprocess.PIPE, text=True
        )
        self.said = self.process.stdout.readline()
        if self.said != "ready\n":
            pytest.skip(f"FUSE can't be mounted here: {self.process.communicate()[1].strip()}")

    def open(self):
        """Opens its file."""
        return os.open(os.path.join(self.folder, "file"), os.O_RDWR | os.O_CLOEXEC)

    def release(self):
        """Answers all that was withheld."""
        self.process.stdin.close()

    def close(self):
        """Unmounts it, and ends it, though its file may be open."""
        self.release()
        subprocess.run(["umount", "--lazy", self.folder], check=True)
        self.process.terminate()
        self.process.wait(PATIENCE)
        self.process.stdout.close(), self.process.stderr.close()


@pytest.fixture
def withheld(tmp_path):
    """A folder whose file nobody closes without waiting."""
    if not os.path.exists("/dev/fuse"):
        pytest.skip("there is no /dev/fuse")
    if importlib.util.find_spec("fusepy") is None:
        pytest.skip("FUSE is for Python by python3-fusepy: apt-get install python3-fusepy")
    it = Mounted(str(tmp_path))
    yield it
    it.close()


@pytest.mark.parametrize("name", MESSAGES)
def test_a_file_whose_close_waits(beside, withheld, name):
    lender, rounds = beside
    client = Client(lender.add("bad"), lambda: "")
    client.negotiate(protocol=OFFERED)
    process = process_of(lender, "bad")
    request, body = MESSAGES[name]

    def act(_):
        file = withheld.open()
        files.append(file)
        client.send(request, body, [file], flags=1)
        lender.become("bad", reports=0)
        assert lender.demand("budget 63") == "ok"

    files = []
    assert rounds(act) < MOST_DELAY
    assert status_of(process)["State"][0] in "SD" and lender.guests()["bad"]["here"] == 1
    withheld.release()
    os.close(files[0])
    client.leave()
    lender.become("bad", here=0)
