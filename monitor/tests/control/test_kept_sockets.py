"""Control sockets that a service manager keeps are as the configuration says after a restart, which
all of [control] and [status] take."""

import os

import pytest
from bigvasta.connection import Connection
from test_service import manager

__all__ = ("manager",)

# A group that this process may give files to, where it is root.
OTHER_GROUP = 1

# The keys of [control] before a restart and after it; what is there then, by its path and its mode.
ONE, TWO = "socket = {folder}/.one\n", "socket = {folder}/.two\n"
RESTARTS = {
    "mode": (ONE + "mode = 0660\n", ONE + "mode = 0600\n", ".one", 0o600),
    "wider mode": (ONE + "mode = 0600\n", ONE, ".one", 0o660),
    "path": (ONE, TWO + "mode = 0640\n", ".two", 0o640),
    "same": (ONE + "mode = 0640\n", ONE + "mode = 0640\n", ".one", 0o640),
}


def restart(manager, program, folder, keys):
    """Starts a host by these keys; returns it, which is ready."""
    file = folder / "host.conf"
    file.write_text(
        f"[host]\nfolder = {folder}\nbudget = 480M\n[control]\n{keys.format(folder=folder)}"
    )
    host = manager.start(program, folder, "--config", str(file))
    manager.until("READY")
    return host


def socket_of(path):
    """Returns the file of a socket, its mode and its group."""
    its = os.stat(path)
    return its.st_ino, its.st_mode & 0o7777, its.st_gid


@pytest.mark.parametrize("what", RESTARTS)
def test_a_kept_socket_is_as_the_file_says(program, folder, manager, what):
    before, after, name, mode = RESTARTS[what]
    assert restart(manager, program, folder, before).end() == 0
    then = socket_of(folder / ".one")
    assert restart(manager, program, folder, after).end() == 0
    its = socket_of(folder / name)
    assert its[1] == mode and (its == then) == (what == "same")
    # That one is kept from then on, with who waits at it.
    with Connection(f"{folder}/{name}") as waiting:
        waiting.socket.sendall(b'{"version": 1, "request": "budget"}\n')
        host = restart(manager, program, folder, after)
        assert waiting.receive({})["budget"] == 480 << 20
    assert socket_of(folder / name) == its
    assert host.end() == 0


def test_a_kept_socket_whose_file_is_gone_is_made_again(program, folder, manager):
    assert restart(manager, program, folder, ONE).end() == 0
    (folder / ".one").unlink()
    host = restart(manager, program, folder, ONE)
    host.control = f"{folder}/.one"
    assert host.status()["budget"] == 480 << 20
    assert host.end() == 0


@pytest.mark.skipif(os.geteuid() != 0, reason="who isn't root gives no file to another group")
def test_a_kept_socket_has_the_group_that_the_file_says(program, folder, manager):
    """Or else that of its folder, whose group all that is made in it has, or of the process."""
    import grp

    keys = f"{ONE}group = {grp.getgrgid(OTHER_GROUP).gr_name}\n"
    for said, bits, group in (
        (ONE, 0o755, os.getegid()),
        (keys, 0o755, OTHER_GROUP),
        (ONE, 0o755, os.getegid()),
        (ONE, 0o2755, OTHER_GROUP),
    ):
        os.chown(folder, -1, OTHER_GROUP)
        os.chmod(folder, bits)
        assert restart(manager, program, folder, said).end() == 0
        assert socket_of(folder / ".one")[2] == group, (said, bits)
