"""Users of a machine whose names look like a number, or like none."""

import os
import shutil
import subprocess

import pytest
from hosts import Host
from waiting import patience_from_now

# What such a machine has, and what each word of a guest's user comes to.
PASSWD = "root:x:0:0::/:/bin/sh\nnone:x:4242:0::/:/bin/sh\n7:x:4243:0::/:/bin/sh\nbob:x:9:0::/:\n"
USERS = {"none": None, "7": 7, "bob": 9, "root": 0}

# Begins a program where this file is in the place of the machine's.
BEGIN = 'mount --bind "$0" /etc/passwd && exec "$@"'


def can_mount():
    """Whether a file may be mounted for a program alone."""
    words = ["unshare", "-m", "sh", "-c", "mount --bind /dev/null /etc/passwd"]
    return (
        bool(shutil.which("unshare")) and subprocess.run(words, capture_output=True).returncode == 0
    )


@pytest.mark.skipif(os.geteuid() != 0 or not can_mount(), reason="mounts a file, which takes root")
def test_a_number_and_none_are_no_names(program, folder):
    passwd = folder / "passwd"
    passwd.write_text(PASSWD)
    guests = [f"[guest {name}-1]\nuser = {name}\n" for name in USERS]
    (folder / "host.conf").write_text(f"[host]\nbudget = 480M\n{''.join(guests)}")
    words = ["-m", "sh", "-c", BEGIN, passwd, program, str(folder), "--config"]
    host = Host("unshare", folder, *words, f"{folder}/host.conf")
    host.lines.next(patience_from_now())
    found = [it["terms"]["user"] for it in host.ask("status")["guests"]]
    assert found == [*USERS.values()]
    assert host.end() == 0
