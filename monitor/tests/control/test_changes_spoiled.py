"""What a host finds in the folder of its changes that isn't its own, or is damaged, is named, isn't
taken, and harms nothing."""

import os
import shutil
import signal
import subprocess
import time

import pytest
from bigvasta.statuses import Refused
from hosts import Host, Raw, say
from keeping import MIB, terms
from waiting import patience_from_now


def spoiled(kept, bytes_):
    """Puts other bytes in the place of what was changed, and starts the host."""
    kept.host.ask("budget", bytes=300 * MIB)
    kept.host.ask("add", name="new")
    kept.host.end()
    text = kept.changes.read_bytes()
    kept.changes.write_bytes(bytes_(text))
    kept.host = None
    return kept.start()


DAMAGED = {
    "cut": (lambda text: text[:-5], "its end is missing"),
    "empty": (lambda text: b"", "its end is missing"),
    "zeros": (lambda text: bytes(len(text)), "its end is missing"),
    "half": (lambda text: text[: len(text) // 2], "its end is missing"),
    "other-key": (lambda text: text.replace(b"budget", b"overdraft"), "line 3: overdraft"),
    "twice": (lambda text: text.replace(b"budget = 300M\n", b"budget = 300M\n" * 2), "said twice"),
    "name": (lambda text: text.replace(b"guest new", b"guest \xff"), "a guest's name"),
    "digits": (lambda text: text.replace(b"300M", b"9" * 40 + b"M"), "line 3: budget"),
    "zero": (lambda text: text.replace(b"300M", b"0M"), "line 3: budget"),
    "large": (lambda text: text + b"#" * (1 << 20), "no file of 1 MiB at most"),
}


@pytest.mark.parametrize("name", DAMAGED)
def test_what_is_damaged_is_named_and_harms_nothing(kept, name):
    spoil, words = DAMAGED[name]
    host = spoiled(kept, spoil)
    assert host.status()["budget"] == 480 * MIB and set(terms(host)) == {"web-1", "web-2"}
    said = [it for it in host.said() if str(kept.changes) in it]
    assert said and any(words in it for it in said), said
    # It stays as it is, so that somebody may mend it, and no change is lost in it.
    text = kept.changes.read_bytes()
    with pytest.raises(Refused, match="changes.conf: .*--until-restart"):
        host.ask("budget", bytes=MIB)
    assert host.ask("budget", bytes=MIB, until_restart=True)["lasts"] is False
    assert kept.changes.read_bytes() == text


# Bytes of the file at most, and its last line.
MOST, END = 1 << 20, b"# The end of what was changed.\n"


@pytest.mark.parametrize("size, budget", ((MOST, 300), (MOST + 1, 480)), ids=("most", "more"))
def test_as_many_bytes_as_there_may_be(kept, size, budget):
    """Lines that say nothing are before the last one."""

    def filled(text):
        left = size - len(text)
        return text.removesuffix(END) + b"#\n" * (left // 2 - 1) + b"#" * (left % 2) + b"#\n" + END

    assert spoiled(kept, filled).status()["budget"] == budget * MIB
    assert kept.changes.stat().st_size == size


def of_another_user(kept):
    os.chown(kept.changes, 65534, -1)


def that_others_may_write(kept):
    kept.changes.chmod(0o666)


def a_link(kept):
    os.rename(kept.changes, kept.folder / "elsewhere")
    os.symlink(kept.folder / "elsewhere", kept.changes)


def a_pipe(kept):
    kept.changes.unlink()
    os.mkfifo(kept.changes, 0o600)


def a_folder(kept):
    kept.changes.unlink()
    kept.changes.mkdir(mode=0o700)


def a_folder_of_another_user(kept):
    os.chown(kept.state, 65534, -1)


def a_folder_that_others_may_write(kept):
    kept.state.chmod(0o777)


def no_folder(kept):
    shutil.rmtree(kept.state)


@pytest.mark.parametrize(
    "spoil",
    (
        of_another_user,
        that_others_may_write,
        a_link,
        a_pipe,
        a_folder,
        a_folder_of_another_user,
        a_folder_that_others_may_write,
        no_folder,
    ),
)
def test_what_is_not_the_hosts_is_not_taken(kept, spoil):
    if os.geteuid():
        pytest.skip("this isn't root")
    kept.host.ask("budget", bytes=300 * MIB)
    kept.host.end()
    spoil(kept)
    host = kept.start()
    assert host.status()["budget"] == 480 * MIB
    assert any(str(kept.state) in it and "no change is kept" in it for it in host.said())
    with pytest.raises(Refused, match="it can't be kept"):
        host.ask("budget", bytes=MIB)


def test_two_hosts_do_not_share_a_folder(kept, program, folder):
    other = folder / "other"
    other.mkdir()
    words = (str(other), "--budget", "100", "--state", str(kept.state))
    host = Host(program, other, *words)
    assert host.lines.next(patience_from_now()) == "ready"
    assert any("it is another host's" in it for it in host.said())
    assert host.end() == 0


def stopped_writer(process):
    """Stops a child of a process that has no files but those that it writes, if one is caught;
    returns its number, or None."""
    try:
        with open(f"/proc/{process}/task/{process}/children", encoding="ascii") as children:
            (found,) = map(int, children.read().split())
        os.kill(found, signal.SIGSTOP)
        with open(f"/proc/{found}/stat", encoding="ascii") as its:
            state = its.read().rsplit(")", 1)[1].split()[0]
        if state == "T" and len(os.listdir(f"/proc/{found}/fd")) <= 2:
            return found
        os.kill(found, signal.SIGCONT)
    except (ValueError, ProcessLookupError, FileNotFoundError):
        pass
    return None


def test_a_lender_that_is_killed_amid_a_write_leaves_what_was_changed(kept):
    """Though the process that writes stands still: it has the lock of the folder, too."""
    kept.host.ask("budget", bytes=300 * MIB)
    raw, end, stopped = Raw(kept.host.control), patience_from_now(), None
    while not stopped:
        assert time.monotonic() < end, "no process that writes is caught"
        raw.socket.sendall(say(request="floor", bytes=MIB) + b"\n")
        for _ in range(200):
            stopped = stopped or stopped_writer(kept.host.process.pid)
        assert stopped or raw.lines.readline()
    kept.host.process.kill()
    assert kept.host.end() == -signal.SIGKILL
    raw.close()
    host = kept.start()
    assert host.status()["budget"] == 300 * MIB, host.said()
    assert host.ask("budget", bytes=MIB)["lasts"]


def fill(path):
    """Fills a disk by a file."""
    with open(path, "wb", buffering=0) as file, pytest.raises(OSError, match="No space left"):
        while True:
            file.write(bytes(4096))


@pytest.mark.skipif(os.geteuid() != 0, reason="a disk is mounted, which takes root")
def test_a_change_for_which_the_disk_has_no_room_is_not_made(kept):
    """Until there is room again."""
    kept.host.end()
    subprocess.run(
        ["mount", "-t", "tmpfs", "-o", "size=64k,mode=700", "state", str(kept.state)], check=True
    )
    try:
        host = kept.start()
        host.ask("budget", bytes=300 * MIB)
        fill(kept.state / "fill")
        with pytest.raises(Refused, match="it can't be kept: No space left on device"):
            host.ask("budget", bytes=MIB)
        assert host.status()["budget"] == 300 * MIB
        (kept.state / "fill").unlink()
        assert host.ask("budget", bytes=MIB)["lasts"]
        assert host.end() == 0
    finally:
        subprocess.run(["umount", "-l", str(kept.state)], check=True)
    kept.start()
