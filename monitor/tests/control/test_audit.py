"""Who changed what of a host, from what to what: in its log on standard error, in events, and by
`bigvasta log`, which shows when, of which guest, and what of the decisions changed a target."""

import json
import os
import signal
import time

import pytest
from bigvasta.connection import Connection
from hosts import Host, Raw, say
from installed import bigvasta
from test_config import TAKEN
from waiting import PATIENCE, eventually, patience_from_now

# Changes that a host keeps.
MIB, MOST_NOTES = 1 << 20, 256


def notes(host, since=0):
    """Returns what was changed: of which guest, the key, from what, to what."""
    found = host.ask("changes", since=since)["changes"]
    return [(it.get("guest"), it["key"], it["was"], it["is"]) for it in found]


def test_each_change_is_noted_with_what_was(host):
    host.ask("budget", bytes=300 * MIB)
    host.ask("floor", bytes=12 * MIB)  # as it was
    host.ask("floor", bytes=12288)
    host.ask("add", name="a", most=MIB, strict=True)
    host.ask("guest", name="a", most=None, weight=2, user=0)
    host.ask("guest", name="a")
    host.ask("remove", name="a")
    assert notes(host) == [
        (None, "budget", "480M", "300M"),
        (None, "floor", "12M", "12K"),
        ("a", "added", "no", "yes"),
        ("a", "most", "none", "1M"),
        ("a", "strict", "no", "yes"),
        ("a", "most", "1M", "none"),
        ("a", "weight", "1", "2"),
        ("a", "user", "none", "0"),
        ("a", "removed", "no", "yes"),
    ]


def test_who_it_was(host):
    begin = time.time()
    raw = Raw(host.control)
    assert raw.answer(say(request="budget", bytes=MIB, by="a\x1b\u00e9"))["ok"]
    assert raw.answer(say(request="budget", bytes=2 * MIB))["ok"]
    raw.close()
    first, second = host.ask("changes")["changes"]
    assert (first["user"], first["process"]) == (os.getuid(), os.getpid())
    assert (first["by"], "by" in second) == ("a\x1b\u00e9", False)
    assert begin - 0.01 <= first["time"] <= second["time"] <= time.time()
    its = f"user {os.getuid()} (a???), process {os.getpid()}: budget: 480M -> 1M"
    assert f"changed by {its}" in host.said()
    assert f"changed by user {os.getuid()}, process {os.getpid()}: budget: 1M -> 2M" in host.said()


def test_a_name_is_a_name(host):
    raw = Raw(host.control)
    for by in ("x" * 65, 5, None, ["a"]):
        error = raw.answer(say(request="budget", bytes=MIB, by=by))["error"]
        assert (error["code"], error["field"]) == ("bad-field", "by")
    raw.close()
    assert notes(host) == []


def test_the_longest_name_is_noted_whole(host):
    """In the log, what a terminal would obey isn't: what is printed in ASCII stays, from the blank
    to the tilde."""
    raw, by = Raw(host.control), "a ~\x1f!\x7f".ljust(64, "z")
    assert raw.answer(say(request="budget", bytes=300 * MIB, by=by))["ok"]
    raw.close()
    its = host.ask("changes")["changes"][-1]
    assert (its["by"], its["process"], its["user"]) == (by, os.getpid(), os.getuid())
    shown = by.replace("\x1f", "?").replace("\x7f", "?")
    who = f"user {os.getuid()} ({shown}), process {os.getpid()}"
    assert f"changed by {who}: budget: 480M -> 300M" in host.said()


def test_what_is_refused_is_no_change(host):
    raw = Raw(host.control)
    for fields in ({"request": "guest", "name": "a", "most": 0}, {"request": "budget", "bytes": 1}):
        assert not raw.answer(say(**fields))["ok"]
    raw.close()
    assert notes(host) == []


def test_a_target_by_hand_is_noted(arrive, host):
    arrive("a")
    eventually(lambda: host.guest("a")["state"] == "ready")
    host.ask("guest", name="a", target=4096)
    assert notes(host)[-1] == ("a", "target", "0K", "4K")


def test_what_a_file_changes_is_noted(program, folder):
    file = folder / "host.conf"
    file.write_text(f"[host]\nfolder = {folder}\nbudget = 480M\n[guest a]\n")
    host = Host(program, folder, "--config", str(file))
    host.lines.next(patience_from_now())
    file.write_text(file.read_text().replace("480M", "400M") + "most = 7M\n[guest b]\n")
    host.ask("reload")
    wanted = [
        (None, "budget", "480M", "400M"),
        ("b", "added", "no", "yes"),
        ("a", "most", "none", "7M"),
    ]
    assert notes(host) == wanted
    (folder / "c").mkdir()  # where a guest's socket would be: all else is changed
    file.write_text(file.read_text().replace("400M", "300M") + "[guest c]\n")
    host.process.send_signal(signal.SIGHUP)
    eventually(lambda: len(notes(host)) == 4)
    assert notes(host)[3] == (None, "budget", "400M", "300M")
    assert "changed by a signal: budget: 400M -> 300M" in host.said()
    assert host.ask("changes", since=3)["changes"][0]["process"] == 0
    assert host.end() == 0


# Of each key that a file may change while the host runs, by its section and in the sources' order:
# a value, and another one.
VALUES = {
    "host": {
        "budget": ("480M", "300M"),
        "keep": ("1M", "2M"),
        "lowest_budget": ("4M", "5M"),
        "floor": ("8M", "3M"),
        "reserve": ("20", "7"),
        "overdraft": ("1M", "2M"),
        "strict": ("no", "yes"),
        "step": ("0", "7"),
        "patience": ("9", "8"),
        "on_short": ("/bin/false", "/bin/true"),
    },
    "log": {"level": ("info", "debug"), "lines": ("2000", "1000")},
    "guest a": {
        "least": ("1M", "5M"),
        "most": ("none", "12M"),
        "priority": ("0", "9"),
        "weight": ("1", "3"),
        "strict": ("no", "yes"),
        "overhead": ("0K", "11M"),
        "limit": ("none", "tmpfs:/dev/shm"),
        "user": ("none", "0"),
        "memory": ("none", "10M"),
        "start": ("none", "9M"),
    },
}


def valued(folder, number):
    """Returns a file with this value of each key."""
    text = f"[host]\nfolder = {folder}\n"
    for section, keys in VALUES.items():
        text += f"[{section}]\n" if section != "host" else ""
        text += "".join(f"{key} = {values[number]}\n" for key, values in keys.items())
    return text


def test_each_key_that_a_file_changes_is_noted_with_both_values(program, folder):
    assert {f"{it} of [{at.split()[0]}]" for at, keys in VALUES.items() for it in keys} == {
        it[0] for it in TAKEN
    }
    file = folder / "host.conf"
    file.write_text(valued(folder, 0))
    host = Host(program, folder, "--config", str(file))
    host.lines.next(patience_from_now())
    file.write_text(valued(folder, 1))
    host.ask("reload")
    assert notes(host) + notes(host, since=len(notes(host))) == [
        ("a" if section == "guest a" else None, key, *values)
        for section, keys in VALUES.items()
        for key, values in keys.items()
    ]
    assert host.end() == 0


def test_the_last_ones_are_kept(host):
    for number in range(300):
        host.ask("floor", bytes=4096 * (number % 2))
    answer = host.ask("changes", since=3)
    first = answer["changes"][0]["change"]
    assert (answer["lost"], len(answer["changes"]), answer["next"]) == (first - 3, 16, first + 16)
    assert first == 300 + 1 - MOST_NOTES or first == 300 - MOST_NOTES
    assert host.ask("changes", since=10**6)["changes"] == []


def test_a_follower_hears_of_a_change_once(host):
    with Connection(host.control) as it:
        events = it.follow()
        host.ask("budget", bytes=300 * MIB)
        event = next(one for one in events if one["event"] == "changed")
        assert [event[name] for name in ("key", "was", "is", "process")] == [
            "budget",
            "480M",
            "300M",
            os.getpid(),
        ]
        host.ask("add", name="a")
        event = next(one for one in events if one["event"] == "changed")
        assert (event["guest"], event["key"]) == ("a", "added")


def test_a_follower_hears_of_the_changes_that_are_kept(program, folder):
    """A file changes more at once than is kept."""
    file, names = folder / "host.conf", [f"g{it}" for it in range(MOST_NOTES // 5 + 1)]
    head = f"[host]\nfolder = {folder}\nbudget = 480M\n"
    file.write_text(head)
    host = Host(program, folder, "--config", str(file))
    host.lines.next(patience_from_now())
    with Connection(host.control) as it:
        events = it.follow()
        guests = "".join(
            f"[guest {it}]\nleast = 1M\nmost = 2M\nweight = 3\npriority = 4\n" for it in names
        )
        file.write_text(head + guests)
        host.ask("reload")
        changes = (one for one in events if one["event"] == "changed")
        heard = [next(changes) for _ in range(MOST_NOTES)]
    first = 5 * len(names) - MOST_NOTES
    assert [it["change"] for it in heard] == list(range(first, first + MOST_NOTES))
    kept, since = [], first
    while since < first + MOST_NOTES:
        answer = host.ask("changes", since=since)
        kept, since = kept + answer["changes"], answer["next"]
    fields = ("change", "guest", "key", "was", "is")
    assert [[it[name] for name in fields] for it in heard] == [
        [it[name] for name in fields] for it in kept
    ]
    assert host.end() == 0


def log(host, *words):
    """Returns the lines of the log."""
    ran = bigvasta(host.control, "log", *words)
    assert (ran.returncode, ran.stderr) == (0, ""), ran
    return ran.stdout.splitlines()


@pytest.fixture
def busy(host, arrive):
    """A host of two guests on which something was decided and changed."""
    arrive("a"), arrive("b")
    eventually(lambda: all(it["state"] == "ready" for it in host.ask("status")["guests"]))
    host.ask("floor", bytes=0)
    host.ask("budget", bytes=768 << 10)
    eventually(lambda: any(it["target"] for it in host.ask("status")["guests"]))
    return host


def changes_a_target(line):
    """Whether a line of a decision shows a target that it changed."""
    return ">" in line.partition("targets:")[2]


def test_the_log_has_times_and_who_changed_what(busy):
    lines = log(busy)
    assert all(line[2] == line[5] == ":" and line[8] == " " for line in lines), lines
    assert [line[:8] for line in lines] == sorted(line[:8] for line in lines)
    mine = [line[9:] for line in lines if "changed budget" in line]
    assert len(mine) == 1 and mine[0].startswith(
        f"changed budget 480M > 768K by user {os.getuid()}"
    )
    assert any("changed a: added no > yes" in line for line in lines)
    # It comes before what was decided by it.
    after = lines[[it[9:] for it in lines].index(mine[0]) :]
    assert any("decision" in line and "budget 0.8" in line for line in after)


def test_what_changed_a_target(busy):
    def decides_again():
        busy.ask("floor", bytes=0)  # as it was: that is decided on, and changes nothing
        return any(" decision " in it and not changes_a_target(it) for it in log(busy))

    eventually(decides_again)
    lines, all_lines = log(busy, "--changes"), log(busy)
    decisions = [it for it in lines if " decision " in it]
    assert decisions and all(map(changes_a_target, decisions))
    wanted = [it for it in all_lines if " decision " not in it or changes_a_target(it)]
    assert lines[: len(wanted)] == wanted and len(wanted) < len(all_lines)


def test_what_is_about_a_guest(busy):
    lines = log(busy, "--guest", "a")
    assert any("changed a: added" in it for it in lines)
    assert not any("budget 480M" in it or "changed b" in it for it in lines)
    decisions = [it for it in lines if " decision " in it]
    assert decisions and all(it.partition("targets: ")[2].startswith("a ") for it in decisions)
    assert not any(", b " in it or " b " in it.partition("targets:")[2] for it in decisions)
    assert log(busy, "--guest", "nobody") == []


def test_what_was_since(busy):
    assert log(busy, "--since", "1h") and log(busy, "--since", "1d")
    assert " decision 1: " in next(it for it in log(busy, "--since", "1") if " decision " in it)
    time.sleep(8)
    busy.ask("floor", bytes=4096)
    lines = log(busy, "--since", "7s")
    assert any("changed floor" in it for it in lines)
    assert not any("changed budget" in it for it in lines)
    ran = bigvasta(busy.control, "log", "--since", "yesterday")
    assert ran.returncode == 2 and "10m" in ran.stderr
    ran = bigvasta(busy.control, "log", "--since", "9" * 40)
    assert ran.returncode == 2


def test_the_log_for_programs(busy):
    objects = [json.loads(it) for it in log(busy, "--json")]
    times = [it["time"] for it in objects]
    assert times == sorted(times) and times[-1] <= time.time()
    assert {"budget"} <= {it.get("key") for it in objects}


@pytest.mark.skipif(os.geteuid() != 0, reason="who isn't root makes no namespace of processes")
def test_a_process_of_another_namespace_is_no_signal(program, folder):
    words = ("-p", "-f", "--mount-proc", program, str(folder), "--budget", "480")
    host = Host("unshare", folder, *words)
    host.lines.next(patience_from_now())
    host.ask("budget", bytes=MIB, by="somebody")
    (its,) = host.ask("changes")["changes"]
    assert (its["user"], its["process"], its["by"]) == (0, 0, "somebody")
    said = "changed by user 0 (somebody), process of another namespace: budget: 480M -> 1M"
    assert said in host.said()
    host.process.stdin.write(b"quit\n"), host.process.stdin.flush()
    assert host.process.wait(PATIENCE) == 0
    host.end()
