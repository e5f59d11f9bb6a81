"""The control socket of a host: what each request is answered, what each wrong one is refused by,
and that nobody is waited for."""

import json
import os
import socket
import stat

import pytest
from bigvasta.statuses import Refused
from hosts import Host, Raw, say
from waiting import PATIENCE, eventually, patience_from_now

MIB, PAGE = 1 << 20, 4096
PAGES = "a whole number of bytes in pages of 4096, up to 17592186036224"
NO_USER = "a user of this machine, a user's number, or none"
NO_NUMBER = "a user's name or number, or null"

NO_JSON = "invalid-json"

# A line, and the code, the field and the words by which it is refused.
WRONG = (
    (b"", NO_JSON, None, "no JSON: column 0: '[' or '{' expected near end of file"),
    (b"status", NO_JSON, None, "no JSON: column 6: '[' or '{' expected near 'status'"),
    (b'{"version": 1', NO_JSON, None, "no JSON: column 13: '}' expected near end of file"),
    (b'{"version": 1} {}', NO_JSON, None, "no JSON: column 16: end of file expected near '{'"),
    (
        b'{"version": 1, "version": 1}',
        NO_JSON,
        None,
        "no JSON: column 24: duplicate object key near '\"version\"'",
    ),
    (b"[1]", NO_JSON, None, "JSON, but no object"),
    (b"\xff\xfe", NO_JSON, None, "no JSON: column 0: unable to decode byte 0xff"),
    (b"\0", NO_JSON, None, "no JSON: column 1: '[' or '{' expected near end of file"),
    (b"[" * 3000, NO_JSON, None, "no JSON: column 2049: maximum parsing depth reached near '['"),
    (
        b'{"request": "status"}',
        "missing-field",
        "version",
        "a request says the version of the protocol: 1",
    ),
    (
        b'{"version": 2, "request": "status"}',
        "version",
        "version",
        "version 1 is spoken, and no other",
    ),
    (
        b'{"version": 1.0, "request": "status"}',
        "version",
        "version",
        "version 1 is spoken, and no other",
    ),
    (
        b'{"version": true, "request": "status"}',
        "version",
        "version",
        "version 1 is spoken, and no other",
    ),
    (say(), "missing-field", "request", "a request says what is asked for"),
    (say(request=1), "bad-field", "request", "a string"),
    (say(request=""), "unknown-request", "request", "no request is named so"),
    (say(request="Status"), "unknown-request", "request", "no request is named so"),
    (say(request="status", id=None), "bad-field", "id", "a string or a whole number"),
    (say(request="status", id=1.5), "bad-field", "id", "a string or a whole number"),
    (say(request="status", name="a"), "unknown-field", "name", "this request has no such field"),
    (say(request="guest"), "missing-field", "name", "this request needs it"),
    (say(request="guest", name=5), "bad-field", "name", "a string"),
    (say(request="guest", name="b"), "no-guest", "name", "no guest is named b"),
    (
        say(request="guest", name="a", targt=0),
        "unknown-field",
        "targt",
        "this request has no such field",
    ),
    (say(request="guest", name="a", target=1), "bad-field", "target", PAGES),
    (say(request="guest", name="a", target=-PAGE), "bad-field", "target", PAGES),
    (say(request="guest", name="a", target=1.0), "bad-field", "target", PAGES),
    (say(request="guest", name="a", target="4096"), "bad-field", "target", PAGES),
    (say(request="guest", name="a", target=None), "bad-field", "target", PAGES),
    (say(request="guest", name="a", least=PAGE * 0xFFFFFFFF), "bad-field", "least", PAGES),
    (say(request="guest", name="a", most=2**63), NO_JSON, None, "too big integer"),
    (say(request="guest", name="a", most=False), "bad-field", "most", f"{PAGES}, or null"),
    (
        say(request="guest", name="a", priority=2**32),
        "bad-field",
        "priority",
        "a whole number from 0 to 4294967295",
    ),
    (
        say(request="guest", name="a", priority=-1),
        "bad-field",
        "priority",
        "a whole number from 0 to 4294967295",
    ),
    (say(request="guest", name="a", strict=1), "bad-field", "strict", "true or false"),
    (
        say(request="guest", name="a", limit=1),
        "bad-field",
        "limit",
        "cgroup:PATH, tmpfs:MOUNT, or null",
    ),
    (
        say(request="guest", name="a", limit="tmpfs:x"),
        "bad-field",
        "limit",
        "a path from / on, without ., .. or a slash too many",
    ),
    (
        say(request="guest", name="a", limit="tmpfs:/\u00e9"),
        "bad-field",
        "limit",
        "a path of 151 bytes at most, each of them a letter, a digit or a sign of ASCII",
    ),
    (say(request="guest", name="a", overhead=1), "bad-field", "overhead", PAGES),
    (say(request="guest", name="a", memory=1), "bad-field", "memory", f"{PAGES}, or null"),
    (say(request="guest", name="a", start=1), "bad-field", "start", f"{PAGES}, or null"),
    (
        say(request="guest", name="a", start=PAGE),
        "refused",
        None,
        "a start is for a guest that has a limit",
    ),
    (say(request="guest", name="a", user="no-such"), "bad-field", "user", NO_USER),
    (say(request="guest", name="a", user=-1), "bad-field", "user", NO_NUMBER),
    (say(request="guest", name="a", user=2**32 - 1), "bad-field", "user", NO_NUMBER),
    (say(request="guest", name="a", user=True), "bad-field", "user", NO_NUMBER),
    (say(request="guest", name="a", target=0), "refused", None, "nobody is there"),
    (say(request="guest", name="a", least=PAGE, target=0), "refused", None, "nobody is there"),
    (
        say(request="guest", name="a", least=2 * PAGE, most=PAGE),
        "refused",
        None,
        "its least is more than its most",
    ),
    (say(request="add", name="a"), "guest-exists", "name", "a guest is named a already"),
    (
        say(request="add", name="a/b"),
        "refused",
        None,
        "a name has 1 to 31 letters, digits, - and _, and no other guest has it",
    ),
    (
        say(request="add", name="." * 2),
        "refused",
        None,
        "a name has 1 to 31 letters, digits, - and _, and no other guest has it",
    ),
    (
        say(request="add", name="x" * 32),
        "refused",
        None,
        "a name has 1 to 31 letters, digits, - and _, and no other guest has it",
    ),
    (
        say(request="add", name=""),
        "refused",
        None,
        "a name has 1 to 31 letters, digits, - and _, and no other guest has it",
    ),
    (say(request="remove", name="b"), "no-guest", "name", "no guest is named b"),
    (say(request="budget", bytes=0), "bad-field", "bytes", "a budget of one page or more"),
    (say(request="budget", bytes=PAGE + 1), "bad-field", "bytes", PAGES),
    (
        say(request="log", since=-1),
        "bad-field",
        "since",
        "a whole number from 0 to 9223372036854775807",
    ),
    (say(request="log", limit=0), "bad-field", "limit", "a whole number from 1 to 16"),
    (say(request="log", limit=17), "bad-field", "limit", "a whole number from 1 to 16"),
    (say(request="events", since=0), "unknown-field", "since", "this request has no such field"),
)


@pytest.fixture
def raw(host):
    it = Raw(host.control)
    yield it
    it.close()


def test_each_wrong_line_is_refused_by_its_words_and_changes_nothing(host, raw):
    host.ask("add", name="a")
    before = host.ask("status")
    for line, code, field, text in WRONG:
        answer = raw.answer(line)
        error = answer["error"]
        assert (answer["version"], answer["ok"], error["code"], error.get("field")) == (
            1,
            False,
            code,
            field,
        ), (line, answer)
        assert error["text"].startswith(text) or (code == NO_JSON and text in error["text"]), (
            line,
            error,
        )
    after = host.ask("status")
    assert after["host"]["control"]["refused"] - before["host"]["control"]["refused"] == len(WRONG)
    for it in before, after:
        del it["host"]["control"], it["host"]["counters"]["looks"], it["host"]["measures"]
    assert after == before


def test_an_answer_repeats_its_id_and_answers_are_in_order(raw):
    ids = [0, -5, 2**62, "", "x", "é" * 100]
    raw.socket.sendall(b"".join(say(request="budget", id=it) + b"\n" for it in ids))
    assert [json.loads(raw.lines.readline())["id"] for _ in ids] == ids
    assert "id" not in raw.answer(say(request="budget"))
    assert raw.answer(say(request="nope", id=7))["id"] == 7


def test_lines_in_parts(raw):
    for byte in say(request="budget") + b"\n":
        raw.socket.sendall(bytes([byte]))
    assert json.loads(raw.lines.readline())["budget"] == 480 * MIB


def test_a_line_of_the_most_bytes_and_one_more(host, raw):
    line = say(request="budget", id="x")
    assert raw.answer(line + b" " * (4095 - len(line)))["ok"]
    raw.socket.sendall(b"x" * 4096)
    assert json.loads(raw.lines.readline())["error"] == {
        "code": "too-long",
        "text": "a request has at most 4096 bytes with its end of line",
    }
    assert raw.lines.readline() == b""
    assert host.status()["control"]["clients"] == 1


def test_who_ends_what_it_sends_is_answered_and_then_closed(raw):
    raw.socket.sendall((say(request="budget") + b"\n") * 70 + b"half a line")
    raw.socket.shutdown(socket.SHUT_WR)
    assert [json.loads(it)["budget"] for it in raw.lines] == [480 * MIB] * 70


def test_sizes_set_and_asked_for(host):
    assert (
        host.ask("budget", bytes=500 * MIB)["budget"]
        == 500 * MIB
        == host.ask("budget")["budget"]
        == host.status()["budget"]
    )
    assert host.ask("floor", bytes=3 * PAGE)["floor"] == 3 * PAGE == host.status()["floor"]
    assert host.ask("floor", bytes=0)["floor"] == 0


def test_each_term_is_changed_alone(host):
    terms = host.ask("add", name="a")["guest"]["terms"]
    for name, value in {
        "least": 2 * PAGE,
        "most": 9 * PAGE,
        "priority": 3,
        "strict": True,
        "overhead": PAGE,
    }.items():
        terms |= {name: value}
        assert host.ask("guest", name="a", **{name: value})["guest"]["terms"] == terms, name


def test_a_guest_comes_is_changed_and_goes(host, arrive):
    guest = arrive("web-1")
    ready = eventually(lambda: host.guest("web-1")["answers"] and host.guest("web-1"))
    assert (ready["state"], ready["memory"], ready["held"], ready["free"]) == (
        "ready",
        128 * PAGE,
        128 * PAGE,
        60 * PAGE,
    )
    assert ready["socket"] == f"{host.folder}/web-1"
    host.ask("floor", bytes=0)
    changed = host.ask("guest", name="web-1", least=2 * PAGE, priority=3, target=5 * PAGE)["guest"]
    assert [changed["target"], *(changed["terms"][it] for it in ("least", "priority"))] == [
        5 * PAGE,
        2 * PAGE,
        3,
    ]
    eventually(lambda: host.guest("web-1")["target"] == 0)  # other terms are decided on
    host.ask("guest", name="web-1", target=5 * PAGE)
    with pytest.raises(Refused, match="no mount of tmpfs"):
        host.ask("guest", name="web-1", strict=True, limit="tmpfs:/etc", target=6 * PAGE)
    assert host.guest("web-1")["target"] == 5 * PAGE
    guest.leave()
    eventually(lambda: host.guest("web-1")["state"] == "absent")
    host.ask("remove", name="web-1", force=True)
    assert not os.path.exists(f"{host.folder}/web-1")
    with pytest.raises(Refused, match="no guest is named web-1"):
        host.guest("web-1")


@pytest.mark.parametrize("name", ("--help", "-a"))
def test_a_guest_whose_name_looks_like_an_option(host, arrive, name):
    arrive(name)
    eventually(lambda: host.guest(name)["answers"])


def test_the_mode_and_the_group_of_the_socket(program, folder):
    group = 1 if os.geteuid() == 0 else os.getgid()
    it = Host(
        program,
        folder,
        str(folder),
        "--budget",
        "480",
        "--control-mode",
        "0600",
        "--control-group",
        group_name(group),
    )
    it.lines.next(patience_from_now())
    its = os.stat(it.control)
    assert (stat.S_IMODE(its.st_mode), its.st_uid, its.st_gid) == (0o600, os.geteuid(), group)
    assert it.end() == 0
    assert not os.path.exists(it.control)


def group_name(number):
    """Returns a group's name."""
    import grp

    return grp.getgrgid(number).gr_name


@pytest.mark.parametrize(
    "words",
    (
        ("--control-mode", "999"),
        ("--control-mode", "66"),
        ("--control-mode", "01777"),
        ("--control-group", "no-such-group"),
        ("--control", "relative"),
        ("--log-level", "loud"),
        ("--config",),
        ("--control",),
    ),
)
def test_command_lines_that_are_none(program, folder, words):
    it = Host(program, folder, str(folder), "--budget", "480", *words)
    assert it.process.wait(PATIENCE) == 2
    assert it.said()[-2].startswith("vhost_user_host FOLDER")
    it.end()


def test_a_folder_without_room_for_a_socket(program, folder):
    it = Host(program, folder, f"{folder}/none", "--budget", "480")
    assert it.process.wait(PATIENCE) == 2
    assert it.said()[-1] == f"{folder}/none: No such file or directory"
    it.end()
