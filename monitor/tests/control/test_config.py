"""The configuration file of a host: what it says is done, each key that is wrong is named with its
line, and then the old one stays."""

import os
import re
import signal
import socket

import pytest
from bigvasta.statuses import Refused
from hosts import Answering, Host

MIB = 1 << 20

GOOD = """# A host of 480 MiB.
[host]
folder = {folder}
budget = 480M
floor = 8M          ; for each guest
period = 100

[control]
socket = {folder}/.control
mode = 0600
group = {group}

[log]
level = info
lines = 2000

[guest web-1]

[guest web-2]
"""

# A key's line in that file, and what is in its place; then what is said of it, after the file's
# name.
SIZE = "a number with K, M, G or T, in pages of 4K, under 16T"
NO_USER = "a user of this machine, a user's number, or none"
WRONG = (
    (
        "folder = {folder}",
        "folder = relative",
        "line 3: folder: a path from / on, of 127 bytes at most",
    ),
    (
        "folder = {folder}",
        "folder = /" + "x" * 127,
        "line 3: folder: a path from / on, of 127 bytes at most",
    ),
    ("folder = {folder}", "folder =", "line 3: folder: a path from / on, of 127 bytes at most"),
    ("budget = 480M", "budget = 480", f"line 4: budget: a size of 4K or more: {SIZE}"),
    ("budget = 480M", "budget = 0M", f"line 4: budget: a size of 4K or more: {SIZE}"),
    ("budget = 480M", "budget = 16T", f"line 4: budget: a size of 4K or more: {SIZE}"),
    ("budget = 480M", "budget = -1M", f"line 4: budget: a size of 4K or more: {SIZE}"),
    ("budget = 480M", "budget = M", f"line 4: budget: a size of 4K or more: {SIZE}"),
    ("budget = 480M", "budget = 4 M", f"line 4: budget: a size of 4K or more: {SIZE}"),
    ("floor = 8M", "floor = 8k", f"line 5: floor: a size: {SIZE}"),
    ("floor = 8M", "overdraft = 8k", f"line 5: overdraft: a size: {SIZE}"),
    ("floor = 8M", "keep = 8k", f"line 5: keep: a size: {SIZE}"),
    ("floor = 8M", "reserve = 101", "line 5: reserve: percent, from 0 to 100"),
    ("period = 100", "period = 9", "line 6: period: milliseconds, from 10 to 60000"),
    ("period = 100", "period = 60001", "line 6: period: milliseconds, from 10 to 60000"),
    (
        "socket = {folder}/.control",
        "socket = .control",
        "line 9: socket: a path from / on, of 127 bytes at most",
    ),
    ("mode = 0600", "mode = 999", "line 10: mode: an octal mode, as 0660"),
    ("mode = 0600", "mode = 60", "line 10: mode: an octal mode, as 0660"),
    ("mode = 0600", "mode = 00600", "line 10: mode: an octal mode, as 0660"),
    ("mode = 0600", "mode = 1777", "line 10: mode: an octal mode, as 0660"),
    ("group = {group}", "group = no-such-group", "line 11: group: a group of this machine"),
    ("level = info", "level = loud", "line 14: level: error, warning, notice, info or debug"),
    ("lines = 2000", "lines = 4294967295", "line 15: lines: a number up to 4294967294"),
    ("lines = 2000", "lines = x", "line 15: lines: a number up to 4294967294"),
    ("lines = 2000", "lines = 2000\nlines = 21", "line 16: lines: it is said twice"),
    ("[guest web-1]", "[guest web-1]\nleast = 5", f"line 18: least: a size: {SIZE}"),
    ("[guest web-1]", "[guest web-1]\nmost = 5", f"line 18: most: none, or a size: {SIZE}"),
    (
        "[guest web-1]",
        "[guest web-1]\npriority = high",
        "line 18: priority: a number up to 4294967295",
    ),
    ("[guest web-1]", "[guest web-1]\nstrict = true", "line 18: strict: yes or no"),
    (
        "[guest web-1]",
        "[guest web-1]\nlimit = /x",
        "line 18: limit: none, cgroup:PATH or tmpfs:MOUNT",
    ),
    (
        "[guest web-1]",
        "[guest web-1]\nlimit = cgroup:x",
        "line 18: limit: a path from / on, without ., .. or a slash too many",
    ),
    ("[guest web-1]", "[guest web-1]\noverhead = 1", f"line 18: overhead: a size: {SIZE}"),
    (
        "[guest web-1]",
        "[guest web-1]\nweight = 0",
        "line 18: weight: a number from 1 to 4294967295",
    ),
    ("[guest web-1]", "[guest web-1]\nmemory = 6K", f"line 18: memory: none, or a size: {SIZE}"),
    ("[guest web-1]", "[guest web-1]\nstart = 5", f"line 18: start: none, or a size: {SIZE}"),
    (
        "[guest web-1]",
        "[guest web-1]\nstart = 9M",
        "line 18: start: guest web-1: a start is for a guest that has a limit",
    ),
    (
        "[guest web-1]",
        "[guest web-1]\nstart = 9M\nmost = 8M",
        "line 18: start: guest web-1: its start is more than its most",
    ),
    ("[guest web-1]", "[guest web-1]\nuser = no-such", f"line 18: user: {NO_USER}"),
    ("[guest web-1]", "[guest web-1]\nuser = 4294967295", f"line 18: user: {NO_USER}"),
    (
        "[guest web-1]",
        "[guest web-1]\nlimit = tmpfs:/etc",
        "guest web-1: a limit is for a strict guest, whose deflates wait until it is raised",
    ),
    (
        "[guest web-1]",
        "[guest web-1]\nstrict = yes\nlimit = tmpfs:/etc",
        "guest web-1: no mount of tmpfs",
    ),
    (
        "[guest web-1]",
        "[guest a]\nlimit = cgroup:/x\n[guest web-1]\nlimit = cgroup:/x/y",
        "line 20: limit: guest web-1: the limit is another guest's",
    ),
    (
        "[guest web-1]",
        "[guest web-1]\ncolour = red",
        "line 18: colour: this section has no such key",
    ),
    ("floor = 8M", "overdraft = 481M", "line 5: overdraft: more than the budget"),
    ("floor = 8M", "lowest_budget = 481M", "line 5: lowest_budget: more than the budget"),
    ("floor = 8M", "strict = 1", "line 5: strict: yes or no"),
    ("floor = 8M", "step = x", "line 5: step: a number up to 4294967294"),
    ("floor = 8M", "patience = 0", "line 5: patience: seconds, from 1 to 86400"),
    ("floor = 8M", "patience = 86401", "line 5: patience: seconds, from 1 to 86400"),
    ("floor = 8M", "on_short = x", "line 5: on_short: a path from / on, of 127 bytes at most"),
    (
        "[guest web-1]",
        "[guest web-1]\nleast = 9M\nmost = 8M",
        "line 18: least: guest web-1: its least is more than its most",
    ),
    (
        "[guest web-1]",
        "[guest web.1]\nleast = 9M",
        "line 17: guest web.1: a guest's name has 1 to 31 letters, digits, - and _",
    ),
    ("[log]", "[status]\nmode = 8\n[log]", "line 14: mode: an octal mode, as 0660"),
    (
        "[log]",
        "[status]\nsocket = x\n[log]",
        "line 14: socket: a path from / on, of 127 bytes at most",
    ),
    ("[log]", "[status]\ngroup = no-such-group\n[log]", "line 14: group: a group of this machine"),
    (
        "[host]",
        "[hosts]",
        "line 2: the sections are [host], [control], [status], [log] and [guest NAME]",
    ),
    ("[host]", "", "line 3: folder: a key comes after its section"),
    (
        "[host]",
        "[host",
        "line 2: the sections are [host], [control], [status], [log] and [guest NAME]",
    ),
    ("period = 100", "perid = 100", "line 6: perid: this section has no such key"),
    ("period = 100", "mode = 0600", "line 6: mode: this section has no such key"),
    (
        "period = 100",
        "words without a key",
        "line 6: neither a section, nor a key with its value, nor a comment",
    ),
    (
        "period = 100",
        "x = " + "y" * 190,
        "line 6: a line has 189 bytes at most, and none of them is 0",
    ),
    ("period = 100", "period = 1\0", "line 6: a line has 189 bytes at most, and none of them is 0"),
)

# What can't change while the host runs, and the key that is named with its section.
FIXED = (
    ("folder = {folder}", "folder = /var/tmp", "folder of [host]"),
    ("period = 100", "period = 200", "period of [host]"),
    ("socket = {folder}/.control", "socket = {folder}/.other", "socket of [control]"),
    ("mode = 0600", "mode = 0660", "mode of [control]"),
    ("group = {group}", "", "group of [control]"),
    ("[log]", "[status]\nsocket = {folder}/.other\n[log]", "socket of [status]"),
    ("[log]", "[status]\nmode = 0600\n[log]", "mode of [status]"),
    ("[log]", "[status]\ngroup = {group}\n[log]", "group of [status]"),
)
from linux_kit import ROOT
from waiting import PATIENCE, eventually, patience_from_now


def lines_of_a_client(host):
    """Has a client of a guest break a rule; returns the lines about it, once some are said or left
    out: those of the lender and those of the guest's process are counted apart."""
    with socket.socket(socket.AF_UNIX) as client:
        client.connect(f"{host.folder}/web-1")
        client.sendall(b"\xff" * 12)
        return eventually(lambda: sorted({it for it in host.said() if "web-1" in it}))


def term(name):
    """Returns what reads a term of the guest's."""
    return lambda host: host.guest("web-1")["terms"][name]


# What changes while the host runs: the key, its line, what is in its place, and what shows that,
# with its value.
TAKEN = (
    (
        "budget of [host]",
        "budget = 480M",
        "budget = 300M",
        lambda host: host.status()["budget"],
        300 * MIB,
    ),
    ("floor of [host]", "floor = 8M", "floor = 3M", lambda host: host.status()["floor"], 3 * MIB),
    (
        "keep of [host]",
        "floor = 8M",
        "floor = 8M\nkeep = 1M",
        lambda host: host.status()["keep"],
        MIB,
    ),
    (
        "lowest_budget of [host]",
        "floor = 8M",
        "floor = 8M\nlowest_budget = 40M",
        lambda host: host.status()["lowest_budget"],
        40 * MIB,
    ),
    (
        "overdraft of [host]",
        "floor = 8M",
        "floor = 8M\noverdraft = 2M",
        lambda host: host.status()["overdraft"],
        2 * MIB,
    ),
    (
        "patience of [host]",
        "floor = 8M",
        "floor = 8M\npatience = 7",
        lambda host: host.status()["patience"],
        7,
    ),
    (
        "on_short of [host]",
        "floor = 8M",
        "floor = 8M\non_short = /bin/true",
        lambda host: host.status()["on_short"],
        "/bin/true",
    ),
    (
        "reserve of [host]",
        "floor = 8M",
        "floor = 8M\nreserve = 7",
        lambda host: host.status()["reserve"],
        7,
    ),
    (
        "strict of [host]",
        "floor = 8M",
        "floor = 8M\nstrict = yes",
        lambda host: (host.status()["strict"], term("strict")(host)),
        (True, True),
    ),
    ("step of [host]", "floor = 8M", "floor = 8M\nstep = 7", lambda host: host.status()["step"], 7),
    (
        "level of [log]",
        "level = info",
        "level = notice",
        lambda host: [it for it in host.said() if it.endswith("read again")],
        [],
    ),
    (
        "lines of [log]",
        "lines = 2000",
        "lines = 0",
        lines_of_a_client,
        ["web-1: further lines of this second are left out"],
    ),
    ("least of [guest]", "[guest web-1]", "[guest web-1]\nleast = 5M", term("least"), 5 * MIB),
    ("most of [guest]", "[guest web-1]", "[guest web-1]\nmost = 7M", term("most"), 7 * MIB),
    ("priority of [guest]", "[guest web-1]", "[guest web-1]\npriority = 9", term("priority"), 9),
    ("weight of [guest]", "[guest web-1]", "[guest web-1]\nweight = 3", term("weight"), 3),
    ("strict of [guest]", "[guest web-1]", "[guest web-1]\nstrict = yes", term("strict"), True),
    (
        "overhead of [guest]",
        "[guest web-1]",
        "[guest web-1]\noverhead = 11M",
        term("overhead"),
        11 * MIB,
    ),
    (
        "limit of [guest]",
        "[guest web-1]",
        "[guest web-1]\nstrict = yes\nlimit = tmpfs:/dev/shm",
        term("limit"),
        "tmpfs:/dev/shm",
    ),
    ("user of [guest]", "[guest web-1]", "[guest web-1]\nuser = root", term("user"), 0),
    ("memory of [guest]", "[guest web-1]", "[guest web-1]\nmemory = 9M", term("memory"), 9 * MIB),
    (
        "start of [guest]",
        "[guest web-1]",
        "[guest web-1]\nstrict = yes\nlimit = tmpfs:/dev/shm\nstart = 9M",
        term("start"),
        9 * MIB,
    ),
)


def group_name():
    """Returns the name of this process's group."""
    import grp

    return grp.getgrgid(os.getgid()).gr_name


def filled(folder, old="", new=""):
    """Returns the good file with one line changed."""
    assert not old or GOOD.count(old) == 1, old
    return (
        GOOD.replace(old, new, 1).format(folder=folder, group=group_name())
        if old
        else GOOD.format(folder=folder, group=group_name())
    )


@pytest.fixture
def file(folder):
    """The good file."""
    path = folder / "host.conf"
    path.write_text(filled(folder))
    return path


@pytest.fixture
def configured(program, folder, file):
    """A host that was started by the file alone."""
    it = Host(program, folder, "--config", str(file))
    it.lines.next(patience_from_now())
    yield it
    assert it.end() == 0, it.said()


def keys_of_sources():
    """Returns each key that a file may have, after its section."""
    with open(f"{ROOT}/monitor/backends/settings/config_keys.c", encoding="utf-8") as file:
        return set(re.findall(r'\{"(\w+)", "(\w+)", WORD_', file.read()))


def test_each_key_is_wrong_once(folder):
    keys, wrong = keys_of_sources(), set()
    for old, new, said in WRONG:
        line = re.match(r"line (\d+): (\w+): ", said)
        if line:
            section = "".join(
                it
                for it in filled(folder, old, new).splitlines()[: int(line[1])]
                if it.startswith("[")
            )
            wrong.add((re.findall(r"\[(\w+)", section or "[none")[-1], line[2]))
    assert len(keys) == 30 and keys <= wrong, keys - wrong


def test_what_the_file_says_is_done(configured, folder):
    host = configured.status()
    assert [host[it] for it in ("folder", "budget", "floor", "period", "guests")] == [
        str(folder),
        480 * MIB,
        8 * MIB,
        0.1,
        2,
    ]
    assert [it["name"] for it in configured.ask("status")["guests"]] == ["web-1", "web-2"]
    assert os.stat(configured.control).st_mode & 0o777 == 0o600


def test_as_many_guests_as_there_can_be(program, folder, file):
    file.write_text(filled(folder) + "".join(f"[guest {it}]\n" for it in range(62)))
    host = Host(program, folder, "--config", str(file))
    host.lines.next(patience_from_now())
    assert (host.status()["guests"], host.end()) == (64, 0)


def test_guests_of_the_file_have_their_places_after_a_restart(program, folder, file):
    """On a host of as many as there may be, one of whom another one is until then, and of whom
    nobody is there."""
    words = ("--config", str(file), "--guests", "2", "--leave")
    host = Host(program, folder, *words)
    host.lines.next(patience_from_now())
    host.ask("remove", name="web-1")
    host.ask("add", name="a")
    assert host.end() == 0
    host = Host(program, folder, *words)
    assert host.lines.next(patience_from_now()) == "ready", host.said()
    names = {it["name"] for it in host.ask("status")["guests"]}
    assert (names, host.end()) == ({"web-1", "web-2"}, 0)


@pytest.mark.parametrize("before", ("", " ", "\t ", "\ufeff"), ids=ascii)
def test_a_section_may_begin_after_blanks(program, folder, file, before):
    """Or after the mark that some editors begin a file with: a guest of no keys is there, too."""
    file.write_text(f"{before}[guest web-0]\n{before.strip(chr(0xFEFF))}{filled(folder)}")
    host = Host(program, folder, "--config", str(file))
    host.lines.next(patience_from_now())
    names = [it["name"] for it in host.ask("status")["guests"]]
    assert (names, host.end()) == (["web-0", "web-1", "web-2"], 0)
    file.write_text(f"{before}[hosts]\n{filled(folder)}")
    host = Host(program, folder, "--config", str(file))
    assert host.process.wait(PATIENCE) == 2
    said = f"{file}: line 1: the sections are [host], [control], [status], [log] and [guest NAME]"
    assert said in host.said()
    host.end()


def test_a_guest_is_served_where_its_lines_have_no_bound(program, folder, file):
    file.write_text(filled(folder, "lines = 2000", "lines = 4294967294"))
    host = Host(program, folder, "--config", str(file))
    host.lines.next(patience_from_now())
    guest = Answering(host, "web-1")
    eventually(lambda: host.guest("web-1")["state"] == "ready")
    guest.leave()
    assert (host.end(), [it for it in host.said() if "can't be taken" in it]) == (0, [])


# Options, the lines of a configuration by which all is as with them, and those that there are where
# an option comes before the file, which says that, too.
OPTIONS = (
    ("--budget 100", "budget = 100M", "budget = 100M"),
    ("--floor 1", "floor = 1M", "floor = 1M"),
    ("--control-mode 0640", "mode = 0640", "mode = 0600"),
    ("--control {folder}/.two", "socket = {folder}/.two", "socket = {folder}/.control"),
    ("--status-mode 0604", "mode = 0604", "mode = 0604"),
    ("--status-group {group}", "group = {group}", "group = {group}"),
    ("--log-level notice", "level = notice", "level = info"),
    ("--lines 7", "lines = 7", "lines = 2000"),
)


@pytest.mark.parametrize("is_first", (False, True), ids=("after", "first"))
def test_the_command_line_is_before_the_file(program, folder, file, is_first):
    """Until that is read again, but for what stays as the host runs; some options only where they
    come after it."""
    filled_in = {"folder": folder, "group": group_name()}
    words = [it.format(**filled_in) for option, *_ in OPTIONS for it in option.split()]
    by_file = ("--config", str(file))
    it = Host(program, folder, *(words + [*by_file] if is_first else [*by_file, *words]))
    it.lines.next(patience_from_now())
    own, other = (".control", ".two") if is_first else (".two", ".control")
    it.control = f"{folder}/{own}"
    assert [it.status()[name] for name in ("budget", "floor")] == [100 * MIB, MIB]
    assert os.stat(it.control).st_mode & 0o777 == (0o600 if is_first else 0o640)
    lines = it.ask("config")["config"].splitlines()
    assert {row[1 + is_first].format(**filled_in) for row in OPTIONS} <= {*lines}, lines
    assert len([line for line in lines if line.startswith("group = ")]) == 2, "of both sockets"
    # The other socket is another host's.
    with socket.socket(socket.AF_UNIX) as another:
        another.bind(f"{folder}/{other}")
        assert it.ask("reload")["ok"]
        changed = {change["key"] for change in it.ask("changes")["changes"]}
        assert changed == {"budget", "floor"} | (set() if is_first else {"level", "lines"})
        assert it.end() == 0
        assert [it for it in os.listdir(folder) if it in (own, other)] == [other]


@pytest.mark.parametrize("old, new, said", WRONG)
def test_a_host_does_not_start_by_a_wrong_file(program, folder, file, old, new, said):
    file.write_text(filled(folder, old, new))
    it = Host(program, folder, "--config", str(file))
    assert it.process.wait(PATIENCE) == 2
    assert f"{file}: {said}" in it.said(), it.said()
    it.end()


def test_a_file_that_is_not_there(program, folder):
    it = Host(program, folder, "--config", f"{folder}/none.conf")
    assert it.process.wait(PATIENCE) == 2
    assert it.said()[0] == f"{folder}/none.conf: No such file or directory"
    it.end()


def test_the_old_configuration_stays_where_the_new_one_is_wrong(configured, folder, file):
    before = configured.ask("status")
    for old, new, said in WRONG:
        file.write_text(filled(folder, old, new))
        count = len(configured.said())
        configured.process.send_signal(signal.SIGHUP)
        eventually(
            lambda: f"{file}: the old configuration stays" in configured.said()[count:],
            lambda: (old, new, configured.said()[count:]),
        )
        assert f"{file}: {said}" in configured.said()[count:], configured.said()[count:]
    after = configured.ask("status")
    for it in before, after:
        del it["host"]["control"], it["host"]["counters"], it["host"]["measures"]
    assert after == before


@pytest.mark.parametrize("old, new, key", FIXED)
def test_what_cannot_change_while_the_host_runs(configured, folder, file, old, new, key):
    file.write_text(filled(folder, old, new).replace("480M", "400M"))
    configured.process.send_signal(signal.SIGHUP)
    eventually(
        lambda: f"{file}: {key} can't change while the host runs: the old configuration stays"
        in configured.said()
    )
    assert configured.status()["budget"] == 480 * MIB


def test_each_key_changes_while_the_host_runs_or_cannot():
    assert {f"{key} of [{section}]" for section, key in keys_of_sources()} == {
        it[-1] for it in FIXED
    } | {it[0] for it in TAKEN}


@pytest.mark.parametrize("key, old, new, shown, value", TAKEN, ids=[it[0] for it in TAKEN])
def test_what_changes_while_the_host_runs(configured, folder, file, key, old, new, shown, value):
    # A guest that comes with the file is there once all of it was taken.
    file.write_text(filled(folder, old, new) + "[guest last]\n")
    configured.process.send_signal(signal.SIGHUP)
    eventually(lambda: configured.status()["guests"] == 3)
    assert shown(configured) == value, key


def test_a_file_that_is_read_anew(configured, folder, file):
    file.write_text(
        filled(folder, "[guest web-2]", "[guest web-3]")
        .replace("480M", "400M")
        .replace("floor = 8M", "floor = 0M")
    )
    configured.process.send_signal(signal.SIGHUP)
    eventually(lambda: configured.status()["budget"] == 400 * MIB)
    # A guest that the file doesn't name any longer stays: a reload ends nobody's service.
    assert [it["name"] for it in configured.ask("status")["guests"]] == ["web-1", "web-2", "web-3"]
    assert configured.status()["floor"] == 0


# Keys that change while a host runs.
KEYS = """keep = 1M
lowest_budget = 40M
floor = 3M
reserve = 7
overdraft = 2M
strict = yes
step = 7
patience = 7
on_short = /bin/true

[log]
level = notice
lines = 7
"""


@pytest.mark.parametrize("options", ((), ("--reserve", "9", "--on-short", "/bin/false")))
def test_a_key_that_is_taken_out_is_as_without_it(program, folder, file, options):
    """As the command line says, or as usual; no host is without a budget."""
    bare = f"[host]\nfolder = {folder}\nbudget = 480M\n"
    file.write_text(bare)
    host = Host(program, folder, "--config", str(file), *options)
    host.lines.next(patience_from_now())
    before = host.ask("config")["config"]
    file.write_text(bare + KEYS)
    assert host.ask("reload")["ok"]
    assert {*KEYS.splitlines()} <= {*host.ask("config")["config"].splitlines()}
    file.write_text(bare)
    assert host.ask("reload")["ok"]
    assert host.ask("config")["config"] == before
    file.write_text(bare.replace("budget = 480M", "floor = 3M"))
    with pytest.raises(Refused, match="budget of .host.: it isn't said"):
        host.ask("reload")
    assert (host.ask("config")["config"], host.end()) == (before, 0)


def test_guests_are_as_strict_as_the_file_says(program, folder, file):
    """`strict` of the host is for each guest of which nothing else is said: of the file, of a later
    command, and of a file that is read again; a guest's own word is before it."""
    file.write_text(filled(folder, "floor = 8M", "strict = yes") + "strict = no\n")
    host = Host(program, folder, "--config", str(file))
    host.lines.next(patience_from_now())
    host.ask("add", name="later")
    strict = {it["name"]: it["terms"]["strict"] for it in host.ask("status")["guests"]}
    assert strict == {"web-1": True, "web-2": False, "later": True}
    file.write_text(filled(folder, "floor = 8M", "strict = no"))
    host.process.send_signal(signal.SIGHUP)
    eventually(lambda: not host.status()["strict"])
    host.ask("add", name="latest")
    strict = {it["name"]: it["terms"]["strict"] for it in host.ask("status")["guests"]}
    assert strict == {"web-1": False, "web-2": False, "later": False, "latest": False}
    assert host.end() == 0


def test_each_key_that_is_said_twice_is_named(program, folder, file):
    """However many keys a file has."""
    terms = "least = 1M\nmost = 9M\npriority = 1\nweight = 1\nstrict = no\noverhead = 1M\n"
    terms += "limit = none\nuser = none\nmemory = 9M\n"
    guests = "".join(f"[guest {it}]\n{terms}" for it in range(62))
    file.write_text(filled(folder) + terms + guests + "least = 1M\n")
    count = len(file.read_text().splitlines())
    it = Host(program, folder, "--config", str(file))
    assert it.process.wait(PATIENCE) == 2
    assert it.said()[0] == f"{file}: line {count}: least: it is said twice"
    it.end()


def test_a_host_without_a_file_ends_by_a_hangup(host):
    assert host.end(signal.SIGHUP) == 0
