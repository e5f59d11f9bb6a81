"""Draws a run of boot-linux: what the host holds, what the guest calls free, and its balloon, over
the time."""

import os
import sys

from linux_kit import Fault, Missing

# How what the host holds is drawn, and each line over it; as in tools/draw-run where it is the
# same.
HELD = "#cccccc"
LINES = {
    "free": ("the guest: free", {"color": "#228833", "linewidth": 1.3}),
    "actual": ("the driver: actual", {"color": "#ffaa00", "linewidth": 2.2}),
    "asked": ("the host: target", {"color": "#cc0022", "linewidth": 1.3, "linestyle": (0, (3, 2))}),
}
REPORTS = ("a report", "^", "#ee8866")


def load_library(path):
    """Loads matplotlib, or says how to get it."""
    if not path.endswith((".svg", ".png")):
        raise Fault(f"{path}: the name of a picture ends in .svg or .png")
    try:
        import matplotlib.figure
        import matplotlib.lines
        import matplotlib.patches
        import matplotlib.transforms
    except ImportError:
        raise Missing(
            f"{sys.executable} has no matplotlib for a picture: apt-get install "
            "python3-matplotlib gives it to /usr/bin/python3"
        ) from None
    matplotlib.rcdefaults()
    matplotlib.rcParams.update(
        {"svg.hashsalt": "boot-linux", "font.size": 8, "axes.linewidth": 0.6}
    )
    return matplotlib


def report_times(samples):
    """Returns the times at which something had been reported since the point before."""
    return [it.seconds for before, it in zip(samples, samples[1:]) if it.reported > before.reported]


def draw_memory(axes, samples):
    """Draws what the host holds as an area, and the lines over it."""
    seconds = [it.seconds for it in samples]
    axes.fill_between(seconds, [it.held for it in samples], step="post", color=HELD, linewidth=0)
    for name, (_, style) in LINES.items():
        axes.plot(seconds, [getattr(it, name) for it in samples], drawstyle="steps-post", **style)


def draw_steps(library, axes, rows):
    """Draws a thin line where each step ends, and says above it which one that was; one that ends
    at once is written beside it."""
    down = axes.get_xaxis_transform()
    above = library.transforms.offset_copy(down, axes.figure, y=12, units="points")
    axes.vlines(
        [point.seconds for _, point in rows], 0, 1, color="#777777", linewidth=0.5, transform=down
    )
    least = (axes.get_xlim()[1] - axes.get_xlim()[0]) / 62
    place = -least
    for step, point in rows:
        place = max(place + least, point.seconds)
        words = step.split(",")[0].split(":")[0]
        axes.text(
            place, 1, words, transform=above, rotation=90, ha="center", va="bottom", fontsize=7
        )
        axes.plot(
            [point.seconds, place],
            [1, 1.05],
            color="#777777",
            linewidth=0.5,
            transform=down,
            clip_on=False,
        )


def explain(library, axes):
    """Puts the legend beside the panel."""
    area, line = library.patches.Patch, library.lines.Line2D
    label, shape, colour = REPORTS
    handles = [area(color=HELD, label="the host: held")]
    handles += [line([], [], label=its, **style) for its, style in LINES.values()]
    handles.append(
        line([], [], linestyle="none", marker=shape, color=colour, markersize=5, label=label)
    )
    axes.legend(
        handles=handles,
        loc="upper left",
        bbox_to_anchor=(1.01, 1.05),
        borderaxespad=0,
        frameon=False,
    )


def draw(library, path, memory, samples, rows):
    """Draws the picture of a guest of `memory` MiB, and saves it as what its name says."""
    if not samples:
        raise Fault("the run is too short for a picture")
    figure = library.figure.Figure(figsize=(10, 4.6))
    axes = figure.subplots()
    figure.subplots_adjust(left=0.07, right=0.82, top=0.79, bottom=0.10)
    axes.set(
        xlabel="seconds",
        ylabel="MiB",
        ylim=(0, memory),
        xlim=(samples[0].seconds, rows[-1][1].seconds + 0.1),
    )
    draw_memory(axes, samples)
    _, shape, colour = REPORTS
    times = report_times(samples)
    axes.plot(times, [memory * 0.02] * len(times), shape, color=colour, markersize=5)
    draw_steps(library, axes, rows)
    explain(library, axes)
    figure.savefig(path, dpi=120, metadata={"Date": None} if path.endswith(".svg") else None)
    print(f"drawn: {os.path.relpath(path)}")
