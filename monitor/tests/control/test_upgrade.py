"""An upgrade of a host whose guests live on: the next host takes over the processes that there
are, and shows which are of another version."""

import os
import signal

import pytest
from hosts import Answering, Host
from installed import OLDER, bigvasta, install, older_program, version
from waiting import eventually, patience_from_now


def begin(program, folder):
    """Starts a host that leaves its guests as it ends."""
    it = Host(program, folder, str(folder), "--budget", "480", "--leave")
    it.lines.next(patience_from_now())
    return it


def come(host, name):
    """Has a guest come; returns it."""
    host.ask("add", name=name)
    guest = Answering(host, name)
    eventually(lambda: host.guest(name)["version"])
    return guest


def test_guests_live_through_an_upgrade(program, folder):
    first = begin(older_program(), folder)
    assert (
        first.status()["version"],
        come(first, "old").is_alive(),
        first.guest("old")["version"],
    ) == (OLDER, True, OLDER)
    process = first.guest("old")["process"]
    assert first.end() == 0
    second = begin(program, folder)
    eventually(lambda: second.guest("old")["answers"])
    come(second, "new")
    assert (second.status()["version"], second.guest("old")["process"]) == (version(), process)
    assert [second.guest(it)["version"] for it in ("old", "new")] == [OLDER, version()]
    said = bigvasta(second.control, "status").stdout.splitlines()
    assert (
        said[0].endswith(f"; 2 guests; version {version()}")
        and said[-1] == f"processes of another version: old {OLDER}"
    )
    metrics = bigvasta(second.control, "metrics").stdout
    for name, wanted in (("old", OLDER), ("new", version())):
        assert f'bigvasta_guest_process_info{{guest="{name}",version="{wanted}"}} 1.0' in metrics
    for name in ("old", "new"):
        second.ask("remove", name=name, force=True)
    assert second.end() == 0


def test_a_guest_that_is_added_until_a_restart_lives_on_with_the_others(program, folder):
    """With its terms, where its lender leaves guests; all else is as the command line says."""
    host = begin(program, folder)
    for fields in {"request": "budget", "bytes": 4096}, {"request": "add", "name": "a", "least": 0}:
        assert host.ask(**fields, until_restart=True)["lasts"] is False
    host.ask("guest", name="a", weight=7, until_restart=True)
    assert host.end() == 0
    host = begin(program, folder)
    assert (host.status()["budget"], host.guest("a")["terms"]["weight"]) == (480 << 20, 7)
    host.ask("remove", name="a")
    assert host.end() == 0


def test_one_command_upgrades_the_host_and_its_guests(program, folder, tmp_path):
    installed = tmp_path / "installed"
    host = begin(install(older_program(), installed), folder)
    guests = [come(host, it) for it in "ab"]
    host.ask("add", name="absent")
    before = {it: host.guest(it)["process"] for it in "ab"}
    install(program, installed)
    ran = bigvasta(host.control, "upgrade")
    assert (ran.returncode, ran.stderr) == (0, "")
    assert ran.stdout.splitlines() == [f"{it}: {OLDER} -> {version()}" for it in ("host", "a", "b")]
    assert host.process.poll() is None and host.status()["version"] == version()
    for name, guest in zip("ab", guests):
        eventually(lambda: host.guest(name)["answers"])
        assert (guest.is_alive(), host.guest(name)["version"], host.guest(name)["memory"] > 0) == (
            True,
            version(),
            True,
        )
        assert host.guest(name)["process"] != before[name]
    assert host.guest("absent")["state"] == "absent"
    # Once more, where nothing is newer: the versions are the same, and guests live on.
    assert bigvasta(host.control, "upgrade").stdout.splitlines() == [
        f"{it}: {version()} -> {version()}" for it in ("host", "a", "b")
    ]
    for name in ("a", "b", "absent"):
        host.ask("remove", name=name, force=True)
    assert host.end() == 0


ENDS = {"status": "exit 1", "signal": "kill -9 $$", "never": "exec sleep 600"}


@pytest.mark.parametrize("end", ENDS.values(), ids=ENDS)
def test_a_program_that_does_not_run_upgrades_nothing(program, folder, tmp_path, end):
    installed = tmp_path / "installed"
    host = begin(install(program, installed), folder)
    come(host, "a")
    process = host.guest("a")["process"]
    for broken in ("vhost_user_host", "vhost_user_balloon"):
        os.rename(installed / broken, installed / "aside")
        (installed / broken).write_text(f"#!/bin/sh\ncat\necho out\necho err >&2\n{end}\n")
        os.chmod(installed / broken, 0o755)
        ran = bigvasta(host.control, "upgrade")
        assert (ran.returncode, ran.stdout, ran.stderr) == (
            1,
            "",
            f"bigvasta: {installed / broken}: it doesn't say its version\n",
        )
        os.rename(installed / "aside", installed / broken)
    # What it reads and says is neither the host's input nor the host's words.
    host.process.stdin.write(b"nothing\n"), host.process.stdin.flush()
    assert host.lines.next(patience_from_now()).startswith("error: add, ")
    assert "err" not in host.said()
    assert host.guest("a")["process"] == process
    host.ask("remove", name="a", force=True)
    assert host.end() == 0


def test_a_process_whose_program_does_not_go_on_stays(program, folder, tmp_path):
    installed = tmp_path / "installed"
    host = begin(install(older_program(), installed), folder)
    come(host, "a")
    install(program, installed)
    # It says its version, and doesn't know what is kept.
    (installed / "vhost_user_balloon").unlink()
    (installed / "vhost_user_balloon").write_text("#!/bin/sh\n[ $1 = --version ]\n"), os.chmod(
        installed / "vhost_user_balloon", 0o755
    )
    ran = bigvasta(host.control, "upgrade")
    said = [f"host: {OLDER} -> {version()}", f"a: {OLDER} stays, until its client reconnects"]
    assert (ran.returncode, ran.stdout.splitlines()) == (5, said)
    eventually(lambda: host.guest("a")["answers"])
    assert host.guest("a")["memory"] > 0
    # Once one serves that has taken it over, the next process says nothing of the one that did not.
    stays = (
        "a: upgrade refused: the installed program can't take over its process, "
        f"which stays at {OLDER}"
    )
    eventually(lambda: stays in host.said(), host.said)
    install(program, installed)
    ran = bigvasta(host.control, "upgrade")
    said = [f"host: {version()} -> {version()}", f"a: {OLDER} -> {version()}"]
    assert (ran.returncode, ran.stdout.splitlines()) == (0, said)
    process, ended = (
        host.guest("a")["process"],
        "a: its process has ended by signal 9: another one ",
    )
    os.kill(process, signal.SIGKILL)
    eventually(lambda: host.guest("a")["process"] not in (0, process))
    said = iter(host.said())
    assert any(it.startswith(ended) for it in said)
    assert not any(it.startswith("a: its process stays ") for it in said), host.said()
    host.ask("remove", name="a", force=True)
    assert host.end() == 0


def test_the_upgrade_of_a_host_that_is_not_there(tmp_path):
    ran = bigvasta(str(tmp_path / "nowhere"), "upgrade")
    assert (ran.returncode, ran.stdout) == (3, "")
