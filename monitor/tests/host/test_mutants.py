"""Hosts that are wrong on purpose, by their event loop (tests/mutants/wrong_loop.c) or about a
guest that migrates: each is refused by the test that is for it, and that alone is run. And one of
another layout than the library's."""

import os
import subprocess

import linux_kit
import pytest
from mutants import demand_refused

# Each wrong event loop, and the test that has to refuse it; tests/vhost_user has others, by the
# backend of one guest.
LOOPS = {
    "late-removal": (
        "test_processes.py::test_a_client_is_taken_once_however_late_its_process_takes_it"
    ),
    "old-number": (
        "test_processes.py::"
        "test_who_comes_once_another_has_gone_is_heard_by_files_of_the_same_numbers"
    ),
    "no-hang-up": "test_strict.py::test_who_waits_and_goes_is_forgotten",
}

# Hosts and guests' processes that are wrong about a guest that migrates (tests/mutants:
# wrong_host.c, wrong_lent.c), and the test that has to refuse each.
MOVES = {
    "26": "test_arriving.py::test_there_is_no_room_for_who_comes",
    "27": "test_arriving.py::test_a_guest_comes_with_its_balloon[as it was]",
    "28": "test_arriving.py::test_a_guest_that_migrates_takes_no_pages",
    "29": "test_arriving.py::test_there_is_no_room_for_who_comes",
    "30": "test_arriving.py::"
    "test_a_device_with_fewer_pages_in_its_balloon_than_it_was_to_come_with",
    "31": "test_migrating.py::test_a_balloon_continues_on_another_host[as it was]",
    "32": "test_migrating.py::test_what_the_device_writes_is_logged[killed]",
}

HERE = os.path.dirname(os.path.realpath(__file__))


@pytest.mark.parametrize("name", [pytest.param(it, marks=pytest.mark.wrong(it)) for it in LOOPS])
def test_a_wrong_loop_is_refused(name):
    fault = demand_refused(
        f"{HERE}/{LOOPS[name]}",
        LOOP_WRONG=name,
        HOST_PROGRAM=linux_kit.built("loop/vhost_user_host"),
    )
    print(f"{name} is refused by {LOOPS[name]}: {fault}")


@pytest.mark.parametrize("number", [pytest.param(it, marks=pytest.mark.wrong(it)) for it in MOVES])
def test_a_wrong_host_of_a_guest_that_migrates_is_refused(number):
    fault = demand_refused(
        f"{HERE}/{MOVES[number]}",
        HOST_WRONG=number,
        HOST_PROGRAM=linux_kit.built("wrong-plain/vhost_user_host"),
    )
    print(f"{number} is refused by {MOVES[number]}: {fault}")


def test_a_host_of_another_layout_of_seats_doesnt_begin(tmp_path):
    """Its library says another number than the header that it was built with (wrong_host.c)."""
    words = [linux_kit.built("wrong-plain/vhost_user_host"), tmp_path, "--budget", "1"]
    ran = subprocess.run(
        words,
        env=os.environ | {"HOST_WRONG": "21"},
        capture_output=True,
        text=True,
        stdin=subprocess.DEVNULL,
    )
    assert (ran.returncode, ran.stdout) == (2, "")
    assert "the library has layout 3 of vb_host.h, and not 2" in ran.stderr, ran.stderr
