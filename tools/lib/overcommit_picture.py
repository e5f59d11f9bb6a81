"""Draws what ways to lend save and cost: a line for each way, over its budgets."""

from linux_picture import load_library

WAYS = ("reports alone", "soft", "strict")


def draw(path, beside):
    """Draws rows, by their names, and saves the picture as what its name says."""
    figure = load_library(path).figure.Figure(figsize=(7, 4))
    axes = figure.subplots()
    axes.set(xlabel="memory saved, percent of the mean", ylabel="more time of the work, percent")
    for way in WAYS:
        its = [(name, it) for name, it in beside.items() if name.startswith(way)]
        axes.plot([it.saves for _, it in its], [it.slower for _, it in its], "o-", label=way)
        for name, it in its:
            if "%" in name:
                axes.annotate(name.split()[-1], (it.saves, it.slower), fontsize=7)
    axes.legend(frameon=False)
    figure.savefig(path, dpi=120, metadata={"Date": None} if path.endswith(".svg") else None)
