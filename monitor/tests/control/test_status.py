"""The socket that only shows a host: what would change the host is refused there by name, and all
else is answered as at the control socket."""

import json
import os
import re
import stat

import pytest
from bigvasta.connection import Connection
from hosts import Host, Raw, say
from installed import bigvasta

PAGE, MIB = 4096, 1 << 20

# What would change the host: a request, its fields, the field that is named, and what the refusal
# says changes the host.
CHANGES = (
    ("add", {"name": "b"}, "request", "add"),
    ("add", {}, "request", "add"),
    ("add", {"name": "b", "least": 1}, "request", "add"),
    ("remove", {"name": "a"}, "request", "remove"),
    ("remove", {"name": "none"}, "request", "remove"),
    ("upgrade", {}, "request", "upgrade"),
    ("reload", {}, "request", "reload"),
    ("renew", {"name": "a"}, "request", "renew"),
    ("guest", {"name": "a", "least": PAGE}, "least", "least"),
    ("guest", {"name": "a", "most": PAGE}, "most", "most"),
    ("guest", {"name": "a", "most": None}, "most", "most"),
    ("guest", {"name": "a", "priority": 5}, "priority", "priority"),
    ("guest", {"name": "a", "strict": True}, "strict", "strict"),
    ("guest", {"name": "a", "overhead": 0}, "overhead", "overhead"),
    ("guest", {"name": "a", "limit": None}, "limit", "limit"),
    ("guest", {"name": "a", "user": None}, "user", "user"),
    ("guest", {"name": "a", "memory": None}, "memory", "memory"),
    ("guest", {"name": "a", "start": None}, "start", "start"),
    ("guest", {"name": "a", "weight": 2}, "weight", "weight"),
    ("guest", {"name": "a", "target": 0}, "target", "target"),
    ("guest", {"name": "none", "target": "x", "colour": "red"}, "target", "target"),
    ("budget", {"bytes": 100 * MIB}, "bytes", "bytes"),
    ("budget", {"bytes": 0}, "bytes", "bytes"),
    ("floor", {"bytes": 0}, "bytes", "bytes"),
)

# What is refused there as it is at the control socket, and by which code.
WRONG = (
    (b"", "invalid-json"),
    (b"[1]", "invalid-json"),
    (say(), "missing-field"),
    (say(request="nope"), "unknown-request"),
    (say(request="guest"), "missing-field"),
    (say(request="guest", name="none"), "no-guest"),
    (say(request="status", name="a"), "unknown-field"),
    (say(request="log", limit=0), "bad-field"),
    (b'{"version": 2, "request": "add"}', "version"),
)
from linux_kit import ROOT
from waiting import eventually, patience_from_now

# What shows the host; of these two requests more is shown than is the same at both sockets.
UNTIL = {"until_restart": True}
SHOWS = (
    ("guest", {"name": "a", **UNTIL}),
    ("budget", UNTIL),
    ("floor", UNTIL),
    ("config", {}),
    ("log", {"since": 0, "limit": 1}),
    ("changes", {"since": 0, "limit": 1}),
)
SHOWS_MORE = {("status", "request"), ("events", "request")}


def spelt(fields, macros):
    """Returns a row of the sources with what its macros are."""
    for name in ("TERMS", "LASTS", "NAMED"):
        fields = fields.replace(name, macros[name])
    return fields


def fields_of_requests():
    """Returns each request of the sources with the word `request`, and with each of its fields."""
    with open(f"{ROOT}/monitor/backends/control/requests.c", encoding="utf-8") as file:
        text = " ".join(file.read().replace("\\\n", "").split())
    macros = dict(re.findall(r"#define (TERMS|LASTS|NAMED) (.*?) (?=#define|static)", text))
    _, *rest = re.split(r'\{"(\w+)", (?:SHOWS|CHANGES), \w+, ', text)
    kinds = zip(rest[::2], rest[1::2])
    return {
        (name, it)
        for name, fields in kinds
        for it in ("request", *re.findall(r'\{"(\w+)", FIELD_', spelt(fields, macros)))
    }


@pytest.fixture
def raw(host):
    """A client of the socket that only shows the host."""
    it = Raw(host.shown)
    yield it
    it.close()


def is_the_same(host, before):
    """Whether the host is what it was, but for what it counts."""
    after = host.ask("status")
    for it in before, after:
        for name in ("control", "status", "measures", "counters"):
            it["host"].pop(name, None)
    return after == before


def test_each_request_and_each_field_has_a_row():
    whole = {request for request, _, field, _ in CHANGES if field == "request"}
    rows = {(request, field) for request, _, field, _ in CHANGES} | {
        (request, it) for request, fields in SHOWS for it in ("request", *fields)
    }
    wanted = {
        (request, field)
        for request, field in fields_of_requests()
        if field == "request" or request not in whole
    }
    assert wanted == rows | SHOWS_MORE, wanted ^ (rows | SHOWS_MORE)


def test_what_would_change_the_host_is_refused_by_name_and_changes_nothing(host, raw):
    host.ask("add", name="a")
    before = host.ask("status")
    for request, fields, field, what in CHANGES:
        error = {
            "code": "read-only",
            "field": field,
            "text": f"{what} changes the host, which this socket only shows",
        }
        answer = raw.answer(say(request=request, **fields))
        assert answer == {"version": 1, "ok": False, "error": error}, (request, fields, answer)
    assert host.status()["status"]["refused"] == len(CHANGES)
    assert is_the_same(host, before)


@pytest.mark.parametrize("line, code", WRONG)
def test_what_is_wrong_is_refused_as_at_the_control_socket(host, raw, line, code):
    other = Raw(host.control)
    answer = raw.answer(line)
    assert answer == other.answer(line) and answer["error"]["code"] == code, answer
    other.close()


def test_what_shows_the_host_is_answered_as_at_the_control_socket(host, raw):
    host.ask("add", name="a")
    host.ask("budget", bytes=400 * MIB)
    eventually(lambda: host.status()["counters"]["decisions"])
    for request, fields in SHOWS:
        assert raw.answer(say(request=request, **fields)) == host.ask(request, **fields), request
    assert raw.answer(say(request="status"))["guests"] == host.ask("status")["guests"]


def test_a_status_that_is_given_again_shows_a_change_all_the_same(host):
    """Statuses that take more than a part of the time are given again, until somebody changes the
    host."""
    for number in range(60):
        host.ask("add", name=f"g{number}")
    with Connection(host.control) as it:
        eventually(lambda: it.ask("status") == it.ask("status"), "each status is a new one")
        it.ask("budget", bytes=300 * MIB)
        assert it.ask("status")["host"]["budget"] == 300 * MIB


def test_who_follows_the_host_there_hears_of_its_guests(host, raw):
    assert raw.answer(say(request="events"))["ok"]
    host.ask("add", name="a")
    told = [json.loads(raw.lines.readline())["event"] for _ in range(2)]
    assert told == ["changed", "added"]


def test_as_many_clients_as_there_can_be_leave_room_at_the_control_socket(host):
    clients = [Raw(host.shown) for _ in range(256)]
    eventually(lambda: host.status()["status"]["clients"] == 256)
    late = Raw(host.shown)
    assert json.loads(late.lines.readline())["error"]["code"] == "too-many-clients"
    counted = host.status()
    assert (counted["status"]["turned_away"], counted["control"]["turned_away"]) == (1, 0)
    for it in (late, *clients):
        it.close()


def test_its_place_its_mode_and_its_group(program, folder):
    path = f"{folder}/shown"
    # Root may give a socket to any group, to that of number 1, too.
    group = 1 if os.geteuid() == 0 else os.getgroups()[-1] if os.getgroups() else os.getgid()
    words = ("--status", path, "--status-mode", "0644", "--status-group", group_name(group))
    it = Host(program, folder, str(folder), "--budget", "480", *words)
    it.lines.next(patience_from_now())
    its = os.stat(path)
    assert (stat.S_IMODE(its.st_mode), its.st_gid) == (0o644, group)
    assert not os.path.exists(it.shown) and stat.S_IMODE(os.stat(it.control).st_mode) == 0o660
    with Connection(path) as shown:
        assert shown.ask("budget")["budget"] == 480 * MIB
    assert it.end() == 0
    assert not os.path.exists(path)


def group_name(number):
    """Returns a group's name."""
    import grp

    return grp.getgrgid(number).gr_name


# What an operator asks for who may only look, and the status.
COMMANDS = (
    ("status --names", 0, "a\n"),
    ("guest a", 0, "a: absent, at "),
    ("budget", 0, "480 MiB\n"),
    ("log", 0, ""),
    ("metrics", 0, "# HELP bigvasta_up"),
    ("budget 400M", 1, ""),
    ("add b", 1, ""),
    ("remove a", 1, ""),
    ("guest a priority=1", 1, ""),
)


def test_the_client_program_there(host):
    pytest.importorskip("prometheus_client")
    host.ask("add", name="a")
    for words, code, said in COMMANDS:
        ran = bigvasta(host.shown, *words.split())
        assert (ran.returncode, ran.stdout.startswith(said)) == (code, True), (words, ran)
        assert (
            "changes the host, which this socket only shows: --control names" in ran.stderr
        ) == (code == 1), (words, ran)
