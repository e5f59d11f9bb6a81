"""Where a later lender finds a guest's process: no other user does, and neither end takes another
user's for the other (a lender: test_later_states.py)."""

import os
import socket
import subprocess

import pytest
from aside import Aside
from tenants import FREE, PAGES, eventually, process_of
from test_later_lender import QUICK
from waiting import PATIENCE

NOBODY = 65534

pytestmark = pytest.mark.skipif(os.geteuid() != 0, reason="another user is tried, which takes root")


def become_nobody():
    """Is another user from now on, of no group of the lender's."""
    os.setgroups([]), os.setgid(NOBODY), os.setuid(NOBODY)


def channel():
    """Makes a socket for a channel."""
    it = socket.socket(socket.AF_UNIX, socket.SOCK_SEQPACKET)
    it.settimeout(PATIENCE)
    return it


def length_heard(it):
    """Returns how long the next message is; 0 where the other end has closed."""
    try:
        return len(it.recv(1 << 16))
    except ConnectionResetError:
        return 0


def reached(folder):
    """Returns the sockets below a folder that take another user for a lender."""
    found = []
    for path, _, names in os.walk(folder):
        for name in names:
            with channel() as it:
                if it.connect_ex(f"{path}/{name}") == 0:
                    found.append(name)
    return found


def test_another_user_reaches_no_process(lend, come, folder):
    lender = lend(1, *QUICK, folder=folder)
    come(lender, "a", {FREE: 100})

    def act(begins):
        become_nobody(), begins()
        return reached(folder)

    assert Aside(act).numbers() == []


def test_a_process_takes_no_lender_of_another_user(lend, come, folder):
    lender = lend(1, *QUICK, folder=folder)
    guest = come(lender, "a", {FREE: 100})
    os.chmod(f"{folder}/.channels", 0o755)

    def act(begins):
        become_nobody(), begins()
        with channel() as it:
            it.connect(f"{folder}/.channels/a")
            return length_heard(it)

    assert Aside(act).numbers() == 0
    os.chmod(f"{folder}/.channels", 0o700)
    eventually(
        lambda: lender.hear() or "a: another user isn't taken for the lender" in lender.said()
    )
    guest.give([PAGES])
    lender.become("a", ballooned=1, ready=1)


def make_open(path):
    """Makes a folder that a group may read."""
    os.mkdir(path), os.chmod(path, 0o750)


def make_of_another(path):
    """Makes another user's."""
    os.mkdir(path, 0o700), os.chown(path, NOBODY, NOBODY)


def make_link(path):
    """Makes a link to a folder that would do."""
    os.mkdir(f"{path}-of", 0o700), os.symlink(f"{path}-of", path)


@pytest.mark.parametrize(
    "make",
    (make_open, make_of_another, make_link, lambda path: open(path, "w").close()),
    ids=("open", "of-another", "link", "file"),
)
def test_a_folder_of_channels_that_is_not_the_lenders_alone(plain, tmp_path, make):
    path = str(tmp_path / ".channels")
    make(path)
    ran = subprocess.run(
        [plain, str(tmp_path), "--budget", "1"],
        stdin=subprocess.DEVNULL,
        capture_output=True,
        text=True,
        timeout=PATIENCE,
    )
    why = (
        ": Not a directory"
        if make is make_link or os.path.isfile(path)
        else " isn't the lender's alone"
    )
    assert (ran.returncode, ran.stdout, ran.stderr) == (2, "", f"{path}{why}\n")


def test_channels_of_0_3_0_are_moved(lend, come):
    first = lend(1, *QUICK)
    guest = come(first, "a", {FREE: 100})
    first.demand("add empty")
    process = process_of(first, "a")
    first.kill()
    channels = f"{first.folder}/.channels"
    for name in ("a", "empty"):
        os.rename(f"{channels}/{name}", f"{first.folder}/+{name}")
    os.rmdir(channels)
    for count in (1, 2):
        lender = lend(1, *QUICK, folder=first.folder)
        guest.give([PAGES + count])
        lender.become("a", ready=1, ballooned=count, process=process)
        lender.become("empty", here=0)
        assert sorted(os.listdir(channels)) == ["a", "empty"]
        assert not [it for it in os.listdir(first.folder) if it.startswith("+")]
        lender.kill()
    assert lend(1, *QUICK, folder=first.folder).close() == 0
    assert os.listdir(first.folder) == ["backend.log"]
