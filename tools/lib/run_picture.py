"""Draws the points and marks of a run as panels over the numbers of its events, for
tools/draw-run."""

import itertools
import sys

from run_points import PLACES, Fault, kind_of

# How the host's frames are drawn, from the bottom of the panel up.
HOST = {"used": "#999999", "free": "#eeeeee"}

# How a guest's places are drawn, from the bottom up: in the balloon, on their way, out of it.
PLACES_DRAWN = {
    "lent": "#4477aa",
    "taking": "#66ccee",
    "giving": "#228833",
    "stranded": "#aa3377",
    "reporting": "#ee8866",
    "used": "#ccbb44",
    "free": "#eeeeee",
}

# How a guest's counts are drawn, the last one over the others, and what the legend says.
COUNTS_DRAWN = {
    "ballooned": ("the device: ballooned", {"color": "black", "linewidth": 2.6}),
    "actual": ("the driver: actual", {"color": "#ffaa00", "linewidth": 1.3}),
    "target": (
        "the host: target",
        {"color": "#cc0022", "linewidth": 1.3, "linestyle": (0, (3, 2))},
    ),
}

# What the legend says of each kind of mark, its shape and its colour.
MARKS_DRAWN = {
    "plug": ("plug", "^", "#228833"),
    "unplug": ("unplug", "v", "#555555"),
    "reset": ("reset", "o", "#4477aa"),
    "restart": ("restart", "D", "#aa3377"),
    "no frame": ("no frame", "x", "#cc0022"),
    "broken": ("broken C..: device stops", "X", "#cc0022"),
    "ring broken": ("ring broken: driver stops", "P", "#cc0022"),
}


def load_library():
    """Loads matplotlib, or says how to get it."""
    try:
        import matplotlib.figure
        import matplotlib.lines
        import matplotlib.patches
        import matplotlib.ticker
        import matplotlib.transforms
    except ImportError:
        raise Fault(
            f"{sys.executable} has no matplotlib for a picture: apt-get install "
            "python3-matplotlib gives it to /usr/bin/python3"
        ) from None
    matplotlib.rcdefaults()
    matplotlib.rcParams.update({"svg.hashsalt": "draw-run", "font.size": 8, "axes.linewidth": 0.6})
    return matplotlib


def held(points, numbers_at):
    """Returns each run of points that have numbers: the events at which they change, its end, and
    the numbers there."""
    changes = [
        (next(same).event, numbers) for numbers, same in itertools.groupby(points, numbers_at)
    ]
    ends = [*(event for event, _ in changes[1:]), points[-1].event + 1]
    runs = []
    for has_numbers, run in itertools.groupby(zip(changes, ends), lambda it: it[0][1] is not None):
        if has_numbers:
            run, ended = zip(*run)
            events, numbers = zip(*run)
            runs.append(([*events, ended[-1]], [*numbers, numbers[-1]]))
    return runs


def draw_areas(axes, events, numbers, colours):
    """Draws numbers as areas, one on the other; one that is 0 throughout is left out."""
    drawn = {
        name: [it[name] for it in numbers] for name in colours if any(it[name] for it in numbers)
    }
    if drawn:
        shades = [colours[name] for name in drawn]
        axes.stackplot(
            events, *drawn.values(), colors=shades, step="post", linewidth=0, antialiased=False
        )


def draw_host(axes, points):
    """Draws the frames in use, and the free ones above them."""
    for events, numbers in held(points, lambda it: it.frames):
        draw_areas(axes, events, numbers, HOST)
    axes.set(ylabel="host\nframes", ylim=(0, sum(points[0].frames.values())))


def draw_guest(axes, guest, points, most_pages):
    """Draws a guest's places as areas, and its counts as lines."""
    for events, numbers in held(points, lambda it: it.guests.get(guest)):
        draw_areas(axes, events, numbers, PLACES_DRAWN)
        for name, (_, style) in COUNTS_DRAWN.items():
            axes.plot(events, [it[name] for it in numbers], drawstyle="steps-post", **style)
    highest = max((it.guests[guest]["target"] for it in points if guest in it.guests), default=0)
    if highest > most_pages:
        axes.text(
            0.995,
            0.97,
            f"target up to {highest}, above this scale",
            transform=axes.transAxes,
            ha="right",
            va="top",
        )
    axes.set(ylabel=f"guest {guest}\npages", ylim=(0, max(1, most_pages) * 1.04))


def draw_marks(library, axes, marks):
    """Draws a guest's marks above its panel, each with a thin line down through it."""
    down = axes.get_xaxis_transform()
    above = library.transforms.offset_copy(down, axes.figure, y=7, units="points")
    for kind, (_, shape, colour) in MARKS_DRAWN.items():
        events = [it.event for it in marks if kind_of(it) == kind]
        axes.vlines(events, 0, 1, color=colour, linewidth=0.6, transform=down)
        axes.plot(
            events,
            [1] * len(events),
            shape,
            color=colour,
            markersize=4.5,
            transform=above,
            clip_on=False,
        )
    beside = library.transforms.offset_copy(above, axes.figure, y=5, units="points")
    for mark in marks:
        if kind_of(mark) == "broken":
            axes.text(
                mark.event, 1, mark.text.split(" ")[1], transform=beside, ha="center", fontsize=7
            )


def explain(library, axes, groups):
    """Puts a legend beside a panel: a heading for each group, and below it how each of its parts is
    drawn."""
    handles = []
    for heading, parts in groups.items():
        handles.extend(
            [library.lines.Line2D([], [], linestyle="none", label=heading), *parts] if parts else []
        )
    legend = axes.legend(
        handles=handles,
        loc="upper left",
        bbox_to_anchor=(1.01, 1.05),
        borderaxespad=0,
        frameon=False,
    )
    for text in legend.get_texts():
        text.set_weight("bold" if text.get_text() in groups else "normal")


def guests_legend(library, points, marks):
    """Returns the legend of the guests' panels: the places and marks that there are in this run,
    and the counts."""
    area, line = library.patches.Patch, library.lines.Line2D
    there = {
        place
        for it in points
        for numbers in it.guests.values()
        for place in PLACES
        if numbers[place]
    }
    kinds = {kind_of(it) for it in marks}
    return {
        "pages at each place": [
            area(color=it, label=name)
            for name, it in reversed(PLACES_DRAWN.items())
            if name in there
        ],
        "pages as counted by": [
            line([], [], label=label, **style) for label, style in COUNTS_DRAWN.values()
        ],
        "events": [
            line([], [], linestyle="none", marker=shape, color=colour, markersize=4.5, label=label)
            for kind, (label, shape, colour) in MARKS_DRAWN.items()
            if kind in kinds
        ],
    }


def panels(library, count):
    """Returns a figure with a panel for the host, and below it one for each of `count` guests, over
    the same events."""
    heights = [1.2, *[max(1.5, 3.0 / count)] * count] if count else [1.2]
    height, gap = sum(heights) + 0.35 * count + 0.85, 0.35 * len(heights) / sum(heights)
    figure = library.figure.Figure(figsize=(10, height))
    grid = {"height_ratios": heights, "hspace": gap}
    axes = figure.subplots(len(heights), 1, sharex=True, squeeze=False, gridspec_kw=grid)
    figure.subplots_adjust(left=0.07, right=0.79, top=1 - 0.35 / height, bottom=0.5 / height)
    return figure, axes[:, 0]


def draw(library, path, title, points, marks):
    """Draws the picture, and saves it as what its name says."""
    guests = sorted({it for point in points for it in point.guests} | {it.guest for it in marks})
    most_pages = max(
        (sum(it[name] for name in PLACES) for point in points for it in point.guests.values()),
        default=1,
    )
    figure, (host, *below) = panels(library, len(guests))
    figure.suptitle(title, x=0.07, y=1 - 0.1 / figure.get_figheight(), va="top", ha="left")
    draw_host(host, points)
    explain(
        library,
        host,
        {
            "frames": [
                library.patches.Patch(color=it, label=name) for name, it in reversed(HOST.items())
            ]
        },
    )
    for guest, axes in zip(guests, below):
        draw_guest(axes, guest, points, most_pages)
        draw_marks(library, axes, [it for it in marks if it.guest == guest])
    if guests:
        explain(library, below[0], guests_legend(library, points, marks))
    bottom, every = [host, *below][-1], points[0].event
    bottom.set(
        xlabel="event" if every == 1 else f"event (asked about after every {every})",
        xlim=(0, points[-1].event + 1),
    )
    bottom.xaxis.set_major_locator(library.ticker.MaxNLocator(integer=True))
    figure.savefig(path, dpi=120, metadata={"Date": None} if path.endswith(".svg") else None)
