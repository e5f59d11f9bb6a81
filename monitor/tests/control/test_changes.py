"""What is changed of a host lasts: a file in a folder of its own has it, beside the configuration
file, and both are one whole after a restart and after a reload."""

import os
import shutil
import signal
import subprocess

import pytest
from bigvasta.statuses import Refused
from hosts import Host, Raw, say
from installed import bigvasta
from keeping import MIB, terms, tmpfs
from test_status import fields_of_requests
from waiting import PATIENCE, eventually, patience_from_now


# What is changed of guests, each term of one: `limited` where this machine has what limits a guest.
OF_FIRST = {"most": None, "weight": 3, "priority": 0xFFFFFFFF}
OF_SECOND = {"least": 4096, "user": 0, "limit": None}
OF_NEW = {"strict": True, "memory": 0, "overhead": 12288}
LIMITED = {"limit": f"tmpfs:{tmpfs()}", "start": MIB} if tmpfs() else {}


def changed(host):
    """Changes one of each, and says what there is then."""
    assert host.ask("budget", bytes=300 * MIB)["lasts"]
    assert host.ask("floor", bytes=0)["lasts"]
    assert host.ask("guest", name="web-1", **OF_FIRST)["lasts"]
    assert host.ask("guest", name="web-2", **OF_SECOND)["lasts"]
    assert host.ask("add", name="new", **OF_NEW, **LIMITED)["lasts"]
    assert host.ask("add", name="gone")["lasts"]
    assert host.ask("remove", name="gone")["lasts"]
    return host.status()["budget"], host.status()["floor"], terms(host)


def test_what_is_changed_is_there_after_a_restart_and_a_reload(kept):
    wanted = changed(kept.host)
    assert wanted[0] == 300 * MIB and wanted[1] == 0 and set(wanted[2]) == {"web-1", "web-2", "new"}
    asked = OF_FIRST | OF_SECOND | OF_NEW | {"limit": None, "start": None} | LIMITED
    assert {it for its in wanted[2].values() for it in its} == asked.keys()
    for name, its in (("web-1", OF_FIRST), ("web-2", OF_SECOND), ("new", OF_NEW | LIMITED)):
        assert its.items() <= wanted[2][name].items()
    host = kept.again()
    assert (host.status()["budget"], host.status()["floor"], terms(host)) == wanted
    assert host.ask("reload")["ok"]
    assert (host.status()["budget"], host.status()["floor"], terms(host)) == wanted
    host.process.send_signal(signal.SIGHUP)
    eventually(lambda: len([it for it in host.said() if it.endswith("read again")]) == 2)
    assert (host.status()["budget"], host.status()["floor"], terms(host)) == wanted


# Keys that a budget is no less than, and why a smaller one is refused.
WITHIN = {
    "overdraft": "an overdraft is no more than the budget",
    "lowest_budget": "a budget is no less than lowest_budget",
}


@pytest.mark.parametrize("key", WITHIN)
def test_a_budget_is_no_less_than_these(kept, key):
    """A floor may be. A file may lower both."""
    usual = kept.file.read_text()
    for budget, least in (("480M", "400M"), ("300M", "4M")):
        kept.file.write_text(usual.replace("480M", f"{budget}\n{key} = {least}"))
        assert kept.host.ask("reload")["ok"]
    assert kept.host.ask("floor", bytes=MIB)["lasts"]
    with pytest.raises(Refused, match=WITHIN[key]):
        kept.host.ask("budget", bytes=4 * MIB - 4096)
    assert kept.host.ask("budget", bytes=4 * MIB)["lasts"]


def test_a_guest_of_the_file_that_is_removed_stays_so(kept):
    assert kept.host.ask("remove", name="web-1")["lasts"]
    assert set(terms(kept.again())) == {"web-2"}
    assert kept.host.ask("reload")["ok"] and set(terms(kept.host)) == {"web-2"}
    # Who adds it again has it as they say, not as the file does.
    assert kept.host.ask("add", name="web-1", least=MIB)["guest"]["terms"]["most"] is None
    wanted = terms(kept.host)
    assert terms(kept.again()) == wanted and wanted["web-1"]["most"] is None


@pytest.mark.parametrize("name", ("web-1", "new"))
def test_a_guest_that_is_removed_until_a_restart_stays_so_until_then(kept, name):
    """Over each reload, whether it is a guest of the file or was added for good."""
    assert kept.host.ask("add", name="new")["lasts"]
    assert not kept.host.ask("remove", name=name, until_restart=True)["lasts"]
    for _ in range(2):
        assert set(terms(kept.host)) == {"web-1", "web-2", "new"} - {name}
        assert kept.host.ask("reload")["ok"]
    assert set(terms(kept.again())) == {"web-1", "web-2", "new"}


def test_what_is_changed_until_a_restart(kept):
    before = kept.host.status()["budget"], terms(kept.host)
    until = {"until_restart": True}
    assert kept.host.ask("budget", bytes=100 * MIB, **until)["lasts"] is False
    assert kept.host.ask("guest", name="web-1", most=MIB, **until)["lasts"] is False
    assert kept.host.ask("remove", name="web-2", **until)["lasts"] is False
    assert kept.host.ask("add", name="new", **until)["lasts"] is False
    wanted = kept.host.status()["budget"], terms(kept.host)
    assert wanted[0] == 100 * MIB and set(wanted[1]) == {"web-1", "new"}
    assert not kept.changes.exists()
    # A reload is no restart.
    assert kept.host.ask("reload")["ok"]
    assert (kept.host.status()["budget"], terms(kept.host)) == wanted
    host = kept.again()
    assert (host.status()["budget"], terms(host)) == before


def test_what_lasts_takes_the_place_of_what_does_not(kept):
    kept.host.ask("budget", bytes=100 * MIB, until_restart=True)
    kept.host.ask("budget", bytes=200 * MIB)
    assert kept.host.ask("reload")["ok"]
    assert kept.host.status()["budget"] == 200 * MIB
    assert kept.again().status()["budget"] == 200 * MIB


def test_what_is_changed_back_is_as_the_file_says_from_then_on(kept):
    kept.host.ask("budget", bytes=300 * MIB)
    kept.host.ask("guest", name="web-1", most=MIB, weight=2)
    kept.host.ask("budget", bytes=480 * MIB)
    kept.host.ask("guest", name="web-1", most=100 * MIB)
    kept.file.write_text(kept.file.read_text().replace("480M", "240M").replace("100M", "50M"))
    assert kept.host.ask("reload")["ok"]
    assert kept.host.status()["budget"] == 240 * MIB
    its = terms(kept.host)["web-1"]
    assert (its["most"], its["weight"]) == (50 * MIB, 2)


def test_who_is_changed_back_goes_with_the_file(kept):
    """Nothing is kept of it then: not even that it is there."""
    for most in MIB, 100 * MIB:
        assert kept.host.ask("guest", name="web-1", most=most)["lasts"]
    kept.file.write_text(kept.file.read_text().replace("[guest web-1]\nmost = 100M\n", ""))
    assert set(terms(kept.again())) == {"web-2"}


def test_where_file_and_change_differ_is_shown(kept):
    assert kept.host.status()["differs"] == []
    kept.host.ask("budget", bytes=300 * MIB)
    kept.host.ask("guest", name="web-1", most=MIB, until_restart=True)
    kept.host.ask("remove", name="web-2")
    kept.host.ask("floor", bytes=MIB)  # of which the file says nothing
    assert kept.host.status()["differs"] == [
        {"guest": None, "key": "budget", "file": "480M", "now": "300M", "lasts": True},
        {"guest": "web-1", "key": "most", "file": "100M", "now": "1M", "lasts": False},
        {"guest": "web-2", "key": "removed", "file": "no", "now": "yes", "lasts": True},
    ]
    lines = bigvasta(kept.host.control, "status").stdout.splitlines()
    assert lines[-3:] == [
        "budget is 300M, and 480M in the file",
        "web-1: most is 1M until the host restarts, and 100M in the file",
        "web-2: removed is yes, and no in the file",
    ]
    kept.host.ask("budget", bytes=480 * MIB)
    assert len(kept.host.status()["differs"]) == 2


# Sizes in KiB, and how they are written.
SIZES = ((4, "4K"), (1028, "1028K"), (1 << 10, "1M"), (3 << 20, "3G"), (1 << 30, "1T"))


@pytest.mark.parametrize("kib, text", SIZES)
def test_a_size_has_the_largest_unit_of_which_it_is_a_multiple(kept, kib, text):
    kept.host.ask("guest", name="web-1", most=kib << 10)
    (its,) = kept.host.status()["differs"]
    assert its["now"] == text


def test_all_of_it_as_a_file(kept, program):
    """A host that starts by what `bigvasta config` prints is the same."""
    changed(kept.host)
    text = kept.host.ask("config")["config"]
    ran = bigvasta(kept.host.control, "config")
    assert (ran.returncode, ran.stdout, ran.stderr) == (0, text, "")
    seen = {k: v for k, v in kept.host.status().items() if k in ("budget", "floor", "reserve")}
    wanted = terms(kept.host)
    assert kept.host.end() == 0
    shutil.rmtree(kept.state)
    (kept.folder / "other.conf").write_text(text)
    host = kept.host = Host(program, kept.folder, "--config", f"{kept.folder}/other.conf")
    assert host.lines.next(patience_from_now()) == "ready"
    assert {k: host.status()[k] for k in seen} == seen and terms(host) == wanted
    assert host.ask("config")["config"] == text


def test_the_file_of_all_has_each_section_once(kept):
    """An empty line is between two."""
    parts = [it.splitlines() for it in kept.host.ask("config")["config"].split("\n\n")]
    heads = ("host", "control", "status", "log", "guest web-1", "guest web-2")
    assert [it[0] for it in parts] == [f"[{it}]" for it in heads]
    assert all(" = " in line for _, *lines in parts for line in lines)


def test_a_host_without_a_folder_says_so(host):
    assert host.ask("budget", bytes=300 * MIB)["lasts"] is False
    assert host.ask("add", name="a")["lasts"] is False
    assert "lasts" not in host.ask("guest", name="a") and "lasts" not in host.ask("budget")


def be_a_folder(file):
    """Has a folder be in the place of a file."""
    file.unlink()
    file.mkdir()


# What keeps a change from being written: no file can be made; the new one can't take the old one's
# place. And what is said of that.
SPOILS = (
    (lambda kept: shutil.rmtree(kept.state), "No such file or directory"),
    (lambda kept: be_a_folder(kept.changes), "Is a directory"),
)


@pytest.mark.parametrize("spoil, why", SPOILS, ids=[it[1] for it in SPOILS])
def test_a_change_that_cannot_be_written_is_not_made(kept, spoil, why):
    kept.host.ask("budget", bytes=300 * MIB)
    before = kept.host.status()["budget"], terms(kept.host)
    spoil(kept)
    for request in (
        {"request": "budget", "bytes": MIB},
        {"request": "guest", "name": "web-1", "most": MIB},
        {"request": "add", "name": "new"},
        {"request": "remove", "name": "web-1"},
    ):
        with pytest.raises(Refused, match=f"it can't be kept: {why}; --until-restart"):
            kept.host.ask(**request)
    assert (kept.host.status()["budget"], terms(kept.host)) == before
    assert kept.host.ask("budget", bytes=MIB, until_restart=True)["budget"] == MIB


# Of each kind of request one; but for that which makes the host another program.
REQUESTS = {
    "status": {},
    "guest": {"name": "web-1", "weight": 2},
    "add": {"name": "new"},
    "remove": {"name": "new"},
    "reload": {},
    "renew": {"name": "web-1"},
    "budget": {"bytes": 300 * MIB},
    "floor": {"bytes": MIB},
    "config": {},
    "log": {},
    "changes": {},
    "events": {},
}


def test_no_request_leaves_a_file_open(kept):
    assert {name for name, _ in fields_of_requests()} == {*REQUESTS, "upgrade"}
    files = lambda: len(os.listdir(f"/proc/{kept.host.process.pid}/fd"))
    before = files()
    for request, fields in REQUESTS.items():
        raw = Raw(kept.host.control)
        assert raw.answer(say(request=request, **fields))["ok"] == (request != "renew")
        raw.close()
        added = request == "add"  # where its client comes
        eventually(lambda: files() == before + added, f"{request} leaves a file open")


def test_a_change_that_the_host_refuses_is_not_kept(kept):
    kept.host.ask("budget", bytes=300 * MIB)
    text = kept.changes.read_text()
    (kept.folder / "taken").write_text("where its socket would be")
    for request in (
        {"request": "guest", "name": "web-1", "least": 200 * MIB},
        {"request": "guest", "name": "web-1", "weight": 2, "target": 0},
        {"request": "add", "name": "a" * 500},
        {"request": "add", "name": "\u00e9"},
        {"request": "add", "name": "a", "start": MIB},
        {"request": "add", "name": "taken"},
    ):
        with pytest.raises(Refused):
            kept.host.ask(**request)
    raw = Raw(kept.host.control)
    for limit in ("tmpfs:/a\nbudget = 1T", "cgroup:/a ; b", "cgroup:/\x1b"):
        assert not raw.answer(say(request="add", name="a", strict=True, limit=limit))["ok"]
    raw.close()
    assert kept.changes.read_text() == text
    # Nor is it with the next change.
    assert kept.host.ask("budget", bytes=250 * MIB)["lasts"]
    assert kept.changes.read_text() == text.replace("300M", "250M")


def test_a_change_that_the_host_refuses_changes_no_other_one(kept):
    """Nothing is left of it until a restart, and what was changed until then before is."""
    host, terms_of = kept.host, kept.folder / "=web-1"
    host.ask("guest", name="web-1", weight=5, until_restart=True)
    (kept.folder / "new").mkdir()
    terms_of.unlink()
    terms_of.mkdir()
    for request in ({"request": "add", "name": "new"}, {"request": "guest", "name": "web-1"}):
        for until_restart in (True, False):
            with pytest.raises(Refused, match="File exists|Is a directory|Address already in use"):
                host.ask(**request, weight=2, until_restart=until_restart)
    (kept.folder / "new").rmdir()
    terms_of.rmdir()
    host.ask("reload")
    assert {name: its["weight"] for name, its in terms(host).items()} == {"web-1": 5, "web-2": 1}


def test_an_upgrade_goes_on_with_what_was_changed(kept):
    wanted = changed(kept.host)
    kept.host.ask("upgrade")
    assert kept.host.lines.next(patience_from_now()) == "ready"
    host = kept.host
    assert (host.status()["budget"], host.status()["floor"], terms(host)) == wanted
    assert host.ask("budget", bytes=MIB)["lasts"]


def test_a_kill_at_any_moment_leaves_the_old_or_the_new(kept):
    """Each change is whole in the file, or isn't there."""
    kept.host.ask("budget", bytes=300 * MIB)
    for number in range(8):
        raw = Raw(kept.host.control)
        for it in range(40):
            raw.socket.sendall(say(request="add", name=f"g{number}-{it}") + b"\n")
        [raw.lines.readline() for _ in range(number)]
        kept.host.process.kill()
        kept.host.process.wait()
        raw.close()
        kept.host.end()
        for path in kept.folder.iterdir():
            if path.name.startswith("="):
                path.unlink()
        shutil.rmtree(kept.folder / ".channels")
        host = kept.start()
        assert not [it for it in host.said() if "no change is kept" in it]
        assert host.status()["budget"] == 300 * MIB
        for name in set(terms(host)) - {"web-1", "web-2"}:
            host.ask("remove", name=name)


@pytest.mark.parametrize("key", WITHIN)
def test_a_check_looks_at_the_whole(kept, key):
    kept.host.ask("budget", bytes=3 * MIB)
    file = kept.folder / "next.conf"
    file.write_text(kept.file.read_text().replace("480M", f"480M\n{key} = 4M"))
    for words, status in ((("--state", str(kept.state)), 1), ((), 0)):
        ran = subprocess.run(
            [kept.program, *words, "--check", str(file)], capture_output=True, timeout=PATIENCE
        )
        assert ran.returncode == status, ran
    kept.file.write_text(file.read_text())
    with pytest.raises(Refused, match=f"{key}: more than the budget that was set"):
        kept.host.ask("reload")
    assert kept.host.status()[key] == 0
