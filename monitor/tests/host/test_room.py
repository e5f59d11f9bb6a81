"""Room for a guest that comes, beside what the others can give: to a page."""

import pytest
from tenants import FREE, eventually
from test_owners import bring
from test_strict import STRICT

# A guest of 128 pages comes to a host with this budget in pages, beside one that has as many and
# can give some, which is there or isn't; and by how many pages there is no room. A strict host
# lets it wait, unless its memory alone passes the budget.
ALL = 128
COMES = (
    ("strict=0", 128, None, 0),
    ("strict=0", 127, None, 1),
    ("strict=0", 200, 56, 0),
    ("strict=0", 200, 55, 1),
    ("strict=0", 200, 0, 56),
    ("strict=1", 128, None, 0),
    ("strict=1", 127, None, 1),
)


@pytest.mark.parametrize("terms, budget, free, missing", COMES)
def test_room_to_a_page(lend, come, terms, budget, free, missing):
    lender = lend(1, *STRICT)
    if free is not None:
        come(lender, "b", {FREE: free}, terms)
        lender.become("b", spare=free)
    lender.set_budget(budget)
    lender.demand(f"add a {terms}")
    assert bring(lender, "a") == (missing == 0)
    said = f"refused a: no room for {4 * ALL}K: {4 * missing}K are missing"
    if missing:
        eventually(lambda: lender.hear() or said in lender.said(), lender.said)
    here = free is not None
    assert [lender.counters()[it] for it in ("admitted", "refused")] == [
        here + (missing == 0),
        missing > 0,
    ]
