"""A configuration that is checked beside a host, and one that a host reads again by a request: what
is wrong is named by file, line and key, and the host keeps what it had."""

import re
import subprocess

import pytest
from bigvasta.statuses import Refused
from hosts import Host
from installed import bigvasta
from keeping import each_tmpfs, tmpfs
from linux_kit import ROOT
from test_config import WRONG, filled
from waiting import PATIENCE, patience_from_now

MIB, PAGE = 1 << 20, 4096


def checked(program, file, *words):
    """Checks a file; returns the status, and the lines that were said."""
    ran = subprocess.run(
        [program, *words, "--check", str(file)],
        stdin=subprocess.DEVNULL,
        capture_output=True,
        text=True,
        errors="replace",
        timeout=PATIENCE,
    )
    assert ran.stdout == ""
    return ran.returncode, ran.stderr.splitlines()


@pytest.fixture
def file(folder):
    """A good file."""
    path = folder / "host.conf"
    path.write_text(filled(folder))
    return path


@pytest.fixture
def configured(program, folder, file):
    """A host that was started by it."""
    it = Host(program, folder, "--config", str(file))
    it.lines.next(patience_from_now())
    yield it
    assert it.end() == 0, it.said()


def test_a_good_file(program, file):
    assert checked(program, file) == (0, [])


@pytest.mark.parametrize("old, new, said", WRONG)
def test_a_wrong_file_is_named_by_line_and_key(program, folder, file, old, new, said):
    file.write_text(filled(folder, old, new))
    status, lines = checked(program, file)
    assert status == 1 and f"{file}: {said}" in lines, lines


# Lines whose values are at the bounds of what their keys take, by their sections.
AT_BOUNDS = (
    *(("[host]", f"budget = {it}") for it in ("4K", "17179869176K")),
    *(("[host]", f"{it} = 0K") for it in ("lowest_budget", "overdraft", "keep", "floor")),
    *(("[host]", f"{it} = 480M") for it in ("lowest_budget", "overdraft")),
    *(("[host]", f"reserve = {it}") for it in (0, 100)),
    *(("[host]", f"step = {it}") for it in (0, 4294967294)),
    *(("[host]", f"patience = {it}") for it in (1, 86400)),
    *(("[host]", f"period = {it}") for it in (10, 60000)),
    ("[host]", f"on_short = /{'x' * 126}"),
    *(("[control]", f"mode = {it}") for it in ("000", "0777")),
    *(("[log]", f"lines = {it}") for it in (0, 4294967294)),
    *(("[guest web-1]", f"priority = {it}") for it in (0, 4294967295)),
    *(("[guest web-1]", f"weight = {it}") for it in (1, 4294967295)),
    *(("[guest web-1]", f"{it} = 0K") for it in ("least", "most", "overhead", "memory")),
    ("[guest web-1]", "least = 8M\nmost = 8M"),
    ("[guest web-1]", "start = 8M\nmost = 8M\nstrict = yes\nlimit = tmpfs:/dev/shm"),
)


@pytest.mark.parametrize("section, lines", AT_BOUNDS, ids=[it[1] for it in AT_BOUNDS])
def test_a_value_at_its_bound_is_good(program, folder, file, section, lines):
    others = re.sub(rf"(?m)^{lines.split()[0]} = .*\n", "", filled(folder))
    file.write_text(others.replace(f"{section}\n", f"{section}\n{lines}\n"))
    assert checked(program, file) == (0, [])


def test_a_file_by_which_no_host_starts(program, folder, file):
    file.write_text("[host]\n")
    assert checked(program, file) == (
        1,
        [
            f"{file}: folder of [host]: it isn't said: where the sockets are",
            (
                f"{file}: budget of [host]: it isn't said: what all guests may hold together, as "
                "budget = 8G"
            ),
        ],
    )
    assert checked(program, file, str(folder), "--budget", "480") == (0, [])
    assert checked(program, folder / "none") == (1, [f"{folder}/none: No such file or directory"])


def test_bytes_of_others_making(program, folder, file):
    """A file of 1 GiB, without an end of a line, and one of 1 MiB, the most; a name with bytes that
    a terminal obeys; a number of 40 digits."""
    too_long = (1, [f"{file}: a file has 1 MiB at most"])
    with open(file, "ab") as it:
        it.truncate(1 << 30)
    assert checked(program, file) == too_long
    for size, wanted in ((1 << 20, (0, [])), ((1 << 20) + 1, too_long)):
        file.write_text(filled(folder).ljust(size, "\n"))
        assert checked(program, file) == wanted
    file.write_bytes(filled(folder).encode() + b"[guest \x1b[2J\xff]\n")
    status, lines = checked(program, file)
    assert (status, lines) == (
        1,
        [f"{file}: line 20: guest ?[2J?: a guest's name has 1 to 31 letters, digits, - and _"],
    )
    # What is printed in ASCII stays, from the blank to the tilde, as far as there is room.
    name = " ~!".join(("a", "z" * 80))
    file.write_text(f"{filled(folder)}{name} = 5\n")
    assert checked(program, file) == (
        1,
        [f"{file}: line 20: {name[:63]}: this section has no such key"],
    )
    file.write_text(filled(folder, "budget = 480M", f"budget = {'9' * 40}M"))
    status, lines = checked(program, file)
    assert status == 1 and lines[0].startswith(f"{file}: line 4: budget: a size")


def test_paths_are_in_utf_8(program, folder, file):
    """An answer has them, and is UTF-8."""
    good = filled(folder).replace("floor = 8M ", "on_short = /bin/true").encode()
    for number, key in (3, b"folder"), (5, b"on_short"), (9, b"socket"):
        file.write_bytes(re.sub(rb"(?m)^(%s = \S+)" % key, lambda it: it[1] + b"\xff", good))
        said = f"{file}: line {number}: {key.decode()}: a path in UTF-8"
        assert checked(program, file) == (1, [said])
    for name in "--state", "--on-short", "--control", "--status":
        words = (str(folder), "--budget", "480", name, b"/tmp/\xff")
        ran = subprocess.run([program, *words], capture_output=True, timeout=PATIENCE)
        said = ran.stderr.splitlines()[0]
        assert (ran.returncode, said) == (2, b"%s: /tmp/\xff can't be taken" % name.encode())


# Where the socket of [status] is, beside one of [control] at {folder}/.control, and what is said.
SOCKETS = (
    ("{folder}/.control", "{path}: [control] and [status] have the same socket"),
    ("/tmp/" + "x" * 103, "{path}: File name too long"),
)


@pytest.mark.parametrize("path, said", SOCKETS, ids=("same", "long"))
def test_where_no_control_socket_can_be(program, folder, file, path, said):
    path = path.format(folder=folder)
    file.write_text(filled(folder, "[log]", f"[status]\nsocket = {path}\n[log]"))
    assert checked(program, file) == (1, [said.format(path=path)])
    host = Host(program, folder, "--config", str(file))
    assert host.process.wait(PATIENCE) == 2
    assert said.format(path=path) in host.said()
    host.end()
    fits = filled(folder, "[log]", f"[status]\nsocket = {path[:-1]}\n[log]")
    file.write_text(fits)
    assert checked(program, file) == (0, [])


def test_a_file_that_is_read_by_a_request(configured, folder, file):
    file.write_text(filled(folder, "budget = 480M", "budget = 400M"))
    assert configured.ask("reload") == {"version": 1, "ok": True}
    assert configured.status()["budget"] == 400 * MIB
    ran = bigvasta(configured.control, "reload")
    assert (ran.returncode, ran.stdout, ran.stderr) == (0, "the configuration is read\n", "")


def test_a_host_may_overdraw_as_much_as_its_budget(configured, folder, file):
    """To a page."""
    file.write_text(filled(folder, "budget = 480M", "budget = 400M\noverdraft = 400M"))
    assert configured.ask("reload")["ok"]
    its = configured.status()
    assert (its["budget"], its["overdraft"]) == (400 * MIB, 400 * MIB)
    assert configured.ask("budget", bytes=400 * MIB)["ok"]
    with pytest.raises(Refused, match="an overdraft is no more than the budget"):
        configured.ask("budget", bytes=400 * MIB - PAGE)
    assert configured.status()["budget"] == 400 * MIB


def test_a_request_waits_for_its_outcome(configured, folder, file):
    file.write_text(filled(folder, "budget = 480M", "budget = 400M").replace("8M ", "8 "))
    said = f"{file}: line 5: floor: "
    with pytest.raises(Refused) as refused:
        configured.ask("reload")
    assert refused.value.text.startswith(said)
    ran = bigvasta(configured.control, "reload")
    assert (ran.returncode, ran.stdout) == (1, "") and said in ran.stderr
    assert configured.status()["budget"] == 480 * MIB
    assert [it for it in configured.said() if it.startswith(said)], "it is in the log, too"
    # What can't change while the host runs is refused as well, and is no fault of the file's.
    file.write_text(filled(folder, "period = 100", "period = 200"))
    with pytest.raises(Refused, match="period of .host. can't change while the host runs"):
        configured.ask("reload")


# Options of a host, a line of its file and what comes in its place, by which the new file and the
# options don't fit each other; what is said of that, and whether a check can know it, too.
TOGETHER = {
    "overdraft": (
        ("--overdraft", "100M"),
        "budget = 480M",
        "budget = 50M",
        "overdraft: more than the budget that was set",
        True,
    ),
    "lowest_budget": (
        ("--lowest-budget", "100"),
        "budget = 480M",
        "budget = 50M",
        "lowest_budget: more than the budget that was set",
        True,
    ),
    "budget": (
        ("--budget", "40M"),
        "budget = 480M\n",
        "overdraft = 50M\n",
        "overdraft: more than the budget that was set",
        True,
    ),
    "path": ((), "[guest web-2]", f"[guest {'n' * 31}]", "File name too long", True),
    "guests": (
        ("--guests", "2"),
        "[guest web-2]",
        "[guest web-3]",
        "3 guests, with what was changed, and the host may have 2: --guests",
        False,
    ),
}


@pytest.mark.parametrize("what", TOGETHER)
def test_what_does_not_fit_together_changes_nothing(program, folder, what):
    """All of the old configuration stays, and a host that starts finds what a check says."""
    options, old, new, said, is_known = TOGETHER[what]
    deep = folder / "d".ljust(80 - len(str(folder)), "d")
    deep.mkdir()
    file = deep / "host.conf"
    first = filled(deep, *((old, "") if what == "budget" else ()))
    file.write_text(first)
    host = Host(program, deep, "--config", str(file), *options)
    assert host.lines.next(patience_from_now()) == "ready", host.said()
    before = host.ask("config")["config"]
    file.write_text(filled(deep, old, new).replace("floor = 8M", "floor = 3M"))
    with pytest.raises(Refused, match=re.escape(said)):
        host.ask("reload")
    assert (host.ask("config")["config"], host.ask("changes")["changes"]) == (before, [])
    assert host.end() == 0
    status, lines = checked(program, file, *options)
    assert (status, bool(lines)) == (is_known, is_known) and (not lines or said in lines[0])
    host = Host(program, deep, "--config", str(file), *options)
    assert not is_known or host.process.wait(PATIENCE) == 2
    host.end()


@pytest.mark.parametrize(("key", "unit"), (("overdraft", "M"), ("lowest_budget", "")))
def test_a_check_has_options_before_what_the_file_says(program, folder, key, unit):
    file = folder / "next.conf"
    file.write_text(filled(folder, "budget = 480M", f"budget = 50M\n{key} = 40M"))
    option = f"--{key.replace('_', '-')}"
    said = f"{file}: {key}: more than the budget that was set"
    assert checked(program, file, option, f"60{unit}") == (1, [said])
    assert checked(program, file, option, f"50{unit}") == (0, [])


@pytest.mark.skipif(not tmpfs(), reason="no tmpfs is there")
def test_a_limit_is_one_guests_with_what_was_changed(kept):
    text = kept.file.read_text().replace("480M", "480M\nstrict = yes")
    kept.file.write_text(text)
    assert kept.host.ask("reload")["ok"]
    kept.host.ask("guest", name="web-2", limit=f"tmpfs:{tmpfs()}")
    kept.file.write_text(text.replace("[guest web-1]", f"[guest web-1]\nlimit = tmpfs:{tmpfs()}"))
    said = "the limit is another guest's"
    status, lines = checked(kept.program, kept.file, "--state", str(kept.state))
    assert (status, lines) == (1, [f"{kept.file}: guest web-2: {said}"])
    with pytest.raises(Refused, match=said):
        kept.host.ask("reload")
    kept.file.write_text(text)


@pytest.mark.skipif(not tmpfs(), reason="no tmpfs is there")
@pytest.mark.parametrize("way", ("reload", "restart"))
def test_a_limit_moves_from_guest_to_guest(kept, way):
    """At once, also where both swap what they have, if there is another tmpfs."""
    usual = kept.file.read_text().replace("480M", "480M\nstrict = yes")
    first, second = [*(f"tmpfs:{it}" for it in each_tmpfs()), "none"][:2]
    for one, other in (first, "none"), ("none", first), (first, second), (second, first):
        text = usual.replace("[guest web-1]", f"[guest web-1]\nlimit = {one}")
        kept.file.write_text(text.replace("[guest web-2]", f"[guest web-2]\nlimit = {other}"))
        if way == "reload":
            assert kept.host.ask("reload")["ok"]
        else:
            assert kept.host.end() == 0
            kept.start("--leave")
        found = [kept.host.guest(it)["terms"]["limit"] or "none" for it in ("web-1", "web-2")]
        assert found == [one, other]
    with pytest.raises(Refused, match="the limit is another guest's"):
        kept.host.ask("guest", name="web-1", limit=first)


def test_a_host_without_a_file_reads_none(host):
    with pytest.raises(Refused, match="no configuration file"):
        host.ask("reload")


def test_the_unit_checks_and_waits():
    with open(f"{ROOT}/packaging/systemd/bigvasta-host.service", encoding="utf-8") as file:
        lines = re.findall(r"(?m)^ExecReload=(.*)", file.read())
    assert [it.split()[0] for it in lines] == ["/usr/bin/vhost_user_host", "/usr/bin/bigvasta"]
    assert lines[0].endswith("--check /etc/bigvasta/host.conf") and lines[1].endswith(" reload")
