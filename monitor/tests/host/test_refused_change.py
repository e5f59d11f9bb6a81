"""A change of a guest of which one part can't be made: none is, and nothing of it stays."""

import pytest
from bigvasta.connection import Connection
from bigvasta.statuses import Refused
from tenants import FREE, PAGES, PAGES_OF_ALL
from test_policy import QUICK, become
from vhost_client import PAGE

# Pages of a guest, and those that are asked of `a` as `b` holds all of its own.
ALL, ASKED = 128, 60


@pytest.mark.parametrize("asks", (False, True), ids=("nothing", "what-is-refused"))
def test_a_target_that_was_refused_with_a_term_is_as_it_was(lend, come, tmp_path, asks):
    """It was decided, and is decided again once `b`, which is silent then, holds fewer pages. The
    folder of changes isn't there, so that no term can be kept."""
    lender = lend(1, *QUICK, "--state", str(tmp_path / "none"))
    come(lender, "a", {FREE: ASKED})
    b = come(lender, "b", {FREE: 0})
    pages = [*range(PAGES, PAGES + 64), *range(PAGES_OF_ALL + 20, PAGES_OF_ALL + 64)]
    with Connection(f"{lender.folder}/.control") as control:
        control.ask("budget", bytes=(2 * ALL - ASKED) * PAGE, until_restart=True)
        become(lender, {"a": ASKED, "b": 0})
        if asks:
            with pytest.raises(Refused, match="it can't be kept"):
                control.ask("guest", name="a", weight=2, target=0)
    become(lender, {"a": ASKED, "b": 0})
    b.give(pages)
    lender.become("b", ballooned=len(pages))
    b.take(pages)
    lender.become("b", ballooned=0, held_kib=4 * (ALL - len(pages)))
    b.answers = False
    lender.become("b", answers=0)
    become(lender, {"a": 0, "b": 0})
