"""What the picture of a plan shows: each axis, and each line with its points."""

from types import SimpleNamespace

import pytest
from bigvasta.plan import drawing
from bigvasta.plan.search import Plan


def answer(promise, wait, lacked):
    """Returns the answer of a budget: what it promises, the seconds that are waited in a day, and
    the pages that lack."""
    return SimpleNamespace(
        promise=lambda: promise, wait_a_day=lambda: wait, lacked=lacked, label=lambda: "the best"
    )


# Of two budgets the looser serves; none waits on it, which is drawn as a hundredth of a second. By
# the label of an axis: its scale, and by its name each line's points. A line across a picture has
# the ends 0 and 1.
ANSWERS = (answer(2.0, 120.0, 512), answer(1.5, 0.0, 0))
SHOWN = {
    "seconds a guest and day": (
        "log",
        {
            "waited": [(2.0, 120.0), (1.5, 0.01)],
            "the host itself": [(1.25, 30.0)],
            "limit, 60 s": [(0, 60.0), (1, 60.0)],
            "the best": [(1.5, 0), (1.5, 1)],
        },
    ),
    "MiB": (
        "linear",
        {"short by, at worst": [(2.0, 2.0), (1.5, 0.0)], "the best": [(1.5, 0), (1.5, 1)]},
    ),
}


def test_what_a_picture_shows(tmp_path, monkeypatch):
    pyplot, shown = pytest.importorskip("matplotlib.pyplot"), []
    monkeypatch.setattr(pyplot, "close", shown.append)
    own = SimpleNamespace(promise=1.25, wait_a_day=30.0)
    drawing.draw(Plan(ANSWERS, ANSWERS[1]), 60, own, str(tmp_path / "plan.svg"))
    figure = shown[-1]
    assert SHOWN == {
        axes.get_ylabel(): (
            axes.get_yscale(),
            {line.get_label(): [*map(tuple, line.get_xydata())] for line in axes.lines},
        )
        for axes in figure.axes
    }
    assert figure.axes[-1].get_xlabel() == "promised / budget"
    for axes in figure.axes:
        names = [it.get_text() for it in axes.get_legend().get_texts()]
        assert names == [*SHOWN[axes.get_ylabel()][1]]
