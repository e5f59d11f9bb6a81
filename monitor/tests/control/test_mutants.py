"""Hosts that are wrong on purpose (tests/mutants/wrong_control.c): each is refused by the test that
is for it, and that alone is run."""

import os
import subprocess
import sys

import pytest

# Each wrong host, and the test that has to refuse it.
WRONG = {
    "any-field": (
        "test_control.py::" "test_each_wrong_line_is_refused_by_its_words_and_changes_nothing"
    ),
    "no-id": "test_control.py::test_an_answer_repeats_its_id_and_answers_are_in_order",
    "no-limit": "test_control.py::test_a_line_of_the_most_bytes_and_one_more",
    "waits-for-ever": (
        "test_followers.py::" "test_twenty_clients_of_which_some_never_read_and_one_sends_trash"
    ),
    "all-lost": "test_followers.py::test_decisions_that_are_lost_are_counted",
    "no-events": "test_followers.py::test_followers_hear_each_event_once_and_in_order",
    "open-socket": "test_control.py::test_the_mode_and_the_group_of_the_socket",
    "changes-by-status": (
        "test_status.py::" "test_what_would_change_the_host_is_refused_by_name_and_changes_nothing"
    ),
    "any-word": "test_config.py::test_the_old_configuration_stays_where_the_new_one_is_wrong",
    "half-a-file": "test_config.py::test_the_old_configuration_stays_where_the_new_one_is_wrong",
    "moves": "test_config.py::test_what_cannot_change_while_the_host_runs",
    "deaf": "test_config.py::test_a_file_that_is_read_anew",
    "not-ready": "test_service.py::test_what_a_manager_is_told",
    "no-watchdog": "test_service.py::test_what_a_manager_is_told",
    "forgets-socket": "test_service.py::test_a_client_that_comes_while_no_host_is_there",
}

HERE = os.path.dirname(os.path.realpath(__file__))


@pytest.mark.parametrize("name", [pytest.param(it, marks=pytest.mark.wrong(it)) for it in WRONG])
def test_a_wrong_host_is_refused(wrong_program, name):
    words = [
        sys.executable,
        "-m",
        "pytest",
        "-q",
        "-x",
        "--tb=short",
        "-o",
        "timeout=60",
        os.path.join(HERE, WRONG[name]),
    ]
    environment = {
        **os.environ,
        "CONTROL_WRONG": name,
        "HOST_PROGRAM": wrong_program,
        "PATIENCE": "20",
    }
    ran = subprocess.run(words, env=environment, capture_output=True, text=True, timeout=200)
    faults = [it for it in ran.stdout.splitlines() if it.startswith("E  ")]
    assert (
        ran.returncode == 1 and faults
    ), f"{WRONG[name]} passes: {ran.stdout[-500:]}{ran.stderr[-200:]}"
    print(f"{name} is refused by {WRONG[name]}: {faults[0][4:]}")
