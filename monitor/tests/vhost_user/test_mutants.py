"""Backends that are wrong on purpose (tests/mutants: wrong_backend.c, of a guest that migrates
wrong_moves.c, by their event loop wrong_loop.c): each is refused by the test that is for it, and
that alone is run."""

import os

import linux_kit
import pytest
from mutants import demand_refused

# Each wrong backend, and the test that has to refuse it.
WRONG = {
    "no-call": "test_events.py::test_inflate_and_deflate",
    "serves-stopped": "test_events.py::test_a_ring_that_was_stopped_is_not_served",
    "base-0": "test_events.py::test_a_ring_goes_on_where_it_was",
    "no-reply": "test_events.py::test_an_answer_that_is_waited_for",
    "no-change": "test_events.py::test_a_change_is_told",
    "keeps-slot": "test_events.py::test_a_region_that_is_taken_away",
    "reset-keeps": "test_lives.py::test_a_reset_forgets_the_rings",
    "keeps-memory": "test_lives.py::test_a_device_that_is_plugged_again",
    "first-region": "test_serves.py::test_rings_in_the_second_region",
    "many-statistics": "test_counts.py::test_more_statistics_than_are_kept",
    "keeps-files": "test_serves.py::test_an_old_table_s_files_are_closed",
    "early-change": "test_serves.py::test_a_target_is_not_told_before_the_driver_is_ready",
    "no-more": "test_serves.py::test_what_is_left_after_a_long_service_is_served",
    "any-kick": "test_tenants.py::test_a_kick_that_is_a_semaphore",
    "keeps-kick": "test_tenants.py::test_an_old_kick_s_file_is_closed",
    "long-turn": "test_tenants.py::test_a_turn_of_many_pages",
    "no-ctrunc": "test_wrong_messages.py::test_messages",
    "small-rings": "test_sizes.py::test_a_ring_is_served_whole",
    "old-round": "test_hints.py::test_a_story[the id of the round before]",
    "after-done": "test_hints.py::test_a_story[after DONE]",
    "discards-kept": "test_hints.py::test_hints_are_kept",
    "ids-restart": "test_hints.py::test_ids_go_on_over_a_restart",
    "log-empty": "test_logs.py::test_a_log_that_is_none[no bytes]",
    "log-nowhere": "test_logs.py::test_a_log_that_is_none[an end that overflows]",
    "log-short": "test_logs.py::test_a_log_that_is_none[a byte more]",
    "log-unsealed": "test_logs.py::test_a_log_cannot_be_cut_off",
    "log-old": "test_logs.py::test_a_log_in_place_of_another",
    "logs-nothing": "test_logs.py::test_each_used_ring_that_is_written",
    "log-misses": "test_logs.py::test_a_log_without_a_bit_for_the_ring",
    "log-kills": "test_logs.py::test_a_log_that_is_cut_off",
    "pipe-waits": "test_moved_states.py::test_a_pipe_that_never_ends[blocking]",
    "any-state": "test_moved_states.py::test_each_byte_that_is_changed",
    "forgets-refused": "test_moved_states.py::test_states_that_are_none",
    "any-memory": "test_moves.py::test_a_state_of_another_memory",
    "index-0": "test_moves.py::test_a_driver_that_goes_on_at_index_0",
    "keeps-sent": "test_moves.py::test_what_was_sent_of_the_balloon_is_given_up",
}

# Each wrong event loop, and the test that has to refuse it; tests/host has others, by a lender.
LOOPS = {
    "no-hang-up": "test_refuses.py::test_nobody_comes",
    "one-moment": "test_serves.py::test_a_target_is_told_again",
    "last-first": "test_calls.py::test_a_kick_as_its_ring_is_disabled",
}

HERE = os.path.dirname(os.path.realpath(__file__))


def each(names):
    """Returns the names, each with its mark."""
    return [pytest.param(it, marks=pytest.mark.wrong(it)) for it in names]


@pytest.mark.parametrize("name", each(WRONG))
def test_a_wrong_backend_is_refused(wrong_program, name):
    fault = demand_refused(
        f"{HERE}/{WRONG[name]}", BACKEND_WRONG=name, BACKEND_PROGRAM=wrong_program
    )
    print(f"{name} is refused by {WRONG[name]}: {fault}")


@pytest.mark.parametrize("name", each(LOOPS))
def test_a_wrong_loop_is_refused(name):
    fault = demand_refused(
        f"{HERE}/{LOOPS[name]}",
        LOOP_WRONG=name,
        BACKEND_PROGRAM=linux_kit.built("loop-checked/vhost_user_balloon"),
    )
    print(f"{name} is refused by {LOOPS[name]}: {fault}")
