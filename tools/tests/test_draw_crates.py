"""Tests the graph that tools/draw-crates draws, of crates made up here."""

import pytest
from page_claims import tool

DRAW = tool("draw-crates")

# A trunk of one crate, the library, a part of it that the program reaches by the crate that ties
# both, the program, and one that neither uses.
CRATES = {
    "low": [],
    "vb_core": ["low"],
    "vb_c": ["low", "vb_core"],
    "vb_served": ["vb_core"],
    "vb_sim": ["low", "vb_served"],
    "apart": ["low", "vb_core"],
}

# A line of the graph, and whether it is there.
LINES = (
    ("vb_core -> low", True),
    ("vb_c -> vb_core", True),
    ("vb_c -> low", False),
    ("vb_sim -> vb_served", True),
    ("vb_sim -> low", False),
    ('vb_served -> vb_core [color="#2266cc", penwidth=2]', True),
    ('apart -> vb_core [color="#2266cc", penwidth=2]', True),
    ('apart [style="rounded,filled,dashed"]', True),
    ("vb_sim", True),
)


@pytest.mark.parametrize("line, is_there", LINES)
def test_the_graph_has_the_lines_that_no_other_way_makes(line, is_there):
    assert (line in [it.strip() for it in DRAW.graph(CRATES).splitlines()]) == is_there


def test_the_parts():
    assert DRAW.parts_of(CRATES) == {
        "low": DRAW.TRUNK,
        "vb_core": DRAW.LEFT,
        "vb_c": DRAW.LEFT,
        "vb_served": DRAW.RIGHT,
        "vb_sim": DRAW.RIGHT,
        "apart": DRAW.RIGHT,
    }


def test_the_check_refuses_another_graph(monkeypatch, capsys):
    monkeypatch.setattr(DRAW, "crates", lambda: CRATES)
    assert DRAW.main(["--check"]) == 1
    assert "isn't what crates.txt says" in capsys.readouterr().err
