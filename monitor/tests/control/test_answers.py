"""Answers that can't be made: a host says so, and drops followers whom it can't tell of an
event."""

import json
import os
import subprocess

import pytest
from hosts import Answering, Host, Raw, say
from waiting import PATIENCE, patience_from_now


def test_a_folder_that_is_not_utf_8_is_refused(program, folder):
    path = os.fsencode(folder) + b"/\xff"
    os.mkdir(path)
    ran = subprocess.run(
        [program, path, "--budget", "480"],
        stdin=subprocess.DEVNULL,
        capture_output=True,
        timeout=PATIENCE,
    )
    assert (ran.returncode, ran.stdout, ran.stderr) == (
        2,
        b"",
        b"the path of the folder isn't UTF-8\n",
    )


@pytest.fixture
def broken(wrong_program, folder):
    """A host that has a guest, whose state is called by a byte that isn't UTF-8."""
    it = Host(
        wrong_program,
        folder,
        str(folder),
        "--budget",
        "480",
        environment={"CONTROL_WRONG": "no-utf-8"},
    )
    it.lines.next(patience_from_now())
    yield it
    assert it.end() == 0, it.said()


REQUESTS = (
    {"request": "status"},
    {"request": "guest", "name": "a"},
    {"request": "guest", "name": "a", "least": 0},
)


def test_an_answer_that_cannot_be_made_is_an_internal_error(broken):
    raw = Raw(broken.control)
    refusal = {
        "version": 1,
        "id": 5,
        "ok": False,
        "error": {"code": "internal", "text": "the host couldn't make its answer"},
    }
    assert raw.answer(say(request="add", name="a", id=5)) == refusal
    for fields in REQUESTS:
        assert raw.answer(say(id=5, **fields)) == refusal, fields
    assert raw.answer(say(request="budget"))["ok"]
    raw.close()


def test_a_follower_is_dropped_rather_than_told_half_an_event(broken):
    raw, adds = Raw(broken.control), Raw(broken.control)
    assert raw.answer(say(request="events"))["ok"]
    adds.answer(say(request="add", name="a"))
    guest = Answering(broken, "a")
    told = [json.loads(it)["event"] for it in raw.lines]
    assert [it for it in told if it != "changed"] == ["added", "arrived"]
    assert broken.ask("budget")["ok"], "the others are served"
    guest.leave(), raw.close(), adds.close()
