"""What a replay grants, and the recorded host didn't before its guest no longer wanted it; and what
it grants once another guest has gone."""

import json

from test_checking import PAGE, check

# Of 160 pages 10 are left, which a asks for, and doesn't want at the next look: the replay has
# granted them by then, and a gives them back, which leaves them to b.
BUDGETS = [160] * 5
GUESTS = {"a": "90/0/0 90/10/0 90/0/0 90/0/0 90/0/0", "b": "60/0/0 60/0/0 60/0/0 60/10/0 70/0/10"}


def test_what_was_granted_already_is_given_back(tmp_path, shared):
    found = json.loads(check(tmp_path, shared, (BUDGETS, GUESTS), "--json", fails=True))
    its = {
        it["guest"]: [it[name] // PAGE for name in ("granted", "replayed")]
        for it in found["guests"]
    }
    assert its == {"a": [0, 0], "b": [10, 10]}


# Of 150 pages a has 90 and b 60. At 1 a asks for 10. Before 2 b goes: a has them.
GOES = {"a": "90/0/0 90/10/0 100/0/10 100/0/10", "b": "60/0/0 60/0/0"}


def test_what_a_guest_that_goes_had_is_granted(tmp_path, shared):
    found = json.loads(check(tmp_path, shared, ([150] * 4, GOES), "--json"))
    assert found["agrees"] and [it["replayed"] // PAGE for it in found["guests"]] == [10, 0]


# Of 140 pages a has 80 and b 60. Of 15 that a asks for, of 4 at first, then of 5 and of 6 more, it
# wants 3 no longer before 4; at 5 it has got the others, as there are 12 more.
PARTS = {"a": "80/0/0 80/4/0 80/9/0 80/15/0 80/12/0 92/0/12", "b": " ".join(["60/0/0"] * 6)}


def test_a_part_of_what_was_asked_for_last_is_not_wanted(tmp_path, shared):
    """The rest of it is granted, and what was asked for before."""
    found = json.loads(check(tmp_path, shared, ([140] * 5 + [152], PARTS), "--json"))
    its = [(it["granted"] // PAGE, it["replayed"] // PAGE) for it in found["guests"]]
    assert found["agrees"] and its == [(12, 12), (0, 0)]
