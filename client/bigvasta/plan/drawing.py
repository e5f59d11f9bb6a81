"""The picture of a plan: what is promised by the budget, against what guests wait."""

from bigvasta.sizes import MIB, PAGE
from bigvasta.statuses import Usage

# What no waiting is drawn as: the axis has a logarithm.
LEAST_WAIT = 0.01


def load():
    """Returns matplotlib's figures, for files alone."""
    try:
        import matplotlib

        matplotlib.use("Agg")
        matplotlib.rcParams["svg.hashsalt"] = "bigvasta"
        from matplotlib import pyplot
    except ImportError:
        raise Usage("--draw wants matplotlib: apt-get install python3-matplotlib") from None
    return pyplot


def draw(plan, limit, own, path):
    """Writes the picture to a file, whose name says of what kind it is; with what the recorded host
    did itself, if that is known."""
    pyplot = load()
    figure, (waits, moves) = pyplot.subplots(
        2, 1, sharex=True, figsize=(7, 6), layout="constrained"
    )
    promise = [it.promise() for it in plan.answers]
    waits.plot(
        promise,
        [max(it.wait_a_day(), LEAST_WAIT) for it in plan.answers],
        "o-",
        markersize=3,
        label="waited",
    )
    if own:
        waits.plot(
            [own.promise],
            [max(own.wait_a_day, LEAST_WAIT)],
            "*",
            markersize=12,
            color="tab:purple",
            label="the host itself",
        )
    waits.axhline(max(limit, LEAST_WAIT), color="tab:red", linewidth=1, label=f"limit, {limit:g} s")
    waits.set(yscale="log", ylabel="seconds a guest and day")
    moves.plot(
        promise,
        [it.lacked * PAGE / MIB for it in plan.answers],
        "o-",
        markersize=3,
        color="tab:orange",
        label="short by, at worst",
    )
    moves.set(ylabel="MiB", xlabel="promised / budget")
    if plan.best:
        for axes in (waits, moves):
            axes.axvline(
                plan.best.promise(), color="tab:green", linewidth=1, label=plan.best.label()
            )
    for axes in (waits, moves):
        axes.legend(fontsize="small")
        axes.grid(alpha=0.3)
    try:
        figure.savefig(path, metadata={"Date": None} if path.endswith(".svg") else None)
    except (OSError, ValueError) as fault:
        raise Usage(f"--draw: {path}: {getattr(fault, 'strerror', None) or fault}") from None
    finally:
        pyplot.close(figure)
