"""Draws a run of host-linux: what the host holds of each guest, one above the other, over the time,
what it lends, who waits for whom, and the targets."""

import os

from linux_kit import Fault

# The colours of guests, in turn, and how the lines over all of them are drawn.
GUESTS = ("#77aadd", "#eedd88", "#99ddbb", "#ffaabb", "#bbccee", "#ee8866", "#aaaa00", "#dddddd")
BUDGET = {"color": "#cc0022", "linewidth": 1.6}
PROMISED = {"color": "#444444", "linewidth": 1.2, "linestyle": (0, (1, 2))}
LENT = {"color": "#225588", "linewidth": 1.2, "linestyle": (0, (4, 2))}

# Who waits, and who is waited for; rows of guests that have their names.
WAITS, WAITED_FOR = "#cc0022", {
    "facecolor": "none",
    "edgecolor": "#444444",
    "hatch": "/////",
    "linewidth": 0,
}
SHORT, MOST_NAMES = "#dddddd", 8

# Seconds for which a picture has one point: that where the host held most.
POINT_EVERY = 0.2


def thinned(samples):
    """Returns the sample of each interval where the host held most."""
    found = {}
    for it in samples:
        interval = int(it.seconds / POINT_EVERY)
        if interval not in found or sum(found[interval].held) < sum(it.held):
            found[interval] = it
    return list(found.values())


def draw_held(axes, samples, budget, promised):
    """Draws what each guest holds, one above the other, with the budget and what was promised as
    lines."""
    seconds = [it.seconds for it in samples]
    below = [0.0] * len(samples)
    for number in range(len(samples[0].held)):
        above = [low + it.held[number] for low, it in zip(below, samples)]
        axes.fill_between(
            seconds, below, above, step="post", color=GUESTS[number % len(GUESTS)], linewidth=0
        )
        below = above
    axes.plot(seconds, below, drawstyle="steps-post", color="#333333", linewidth=0.8)
    axes.plot(seconds, [sum(it.loans) for it in samples], drawstyle="steps-post", **LENT)
    axes.axhline(budget, **BUDGET)
    axes.axhline(promised, **PROMISED)
    axes.set(ylabel="MiB on the host", ylim=(0, promised * 1.05))


def is_waited_for(sample, number):
    """Whether another guest waits while this one is still to give pages."""
    return sample.owes[number] > 0 and any(
        it for other, it in enumerate(sample.waits) if other != number
    )


def draw_waits(axes, samples, names):
    """Draws a row for each guest: filled where it waits, and hatched where others wait for what it
    is still to give. It is grey under all rows while the guests can't spare what they lack
    together: then somebody has to free memory."""
    seconds = [it.seconds for it in samples]
    axes.fill_between(
        seconds,
        0,
        len(names),
        where=[it.short > 0 for it in samples],
        step="post",
        color=SHORT,
        linewidth=0,
    )
    for number in range(len(names)):
        waits, owes = [bool(it.waits[number]) for it in samples], [
            is_waited_for(it, number) for it in samples
        ]
        axes.fill_between(
            seconds, number + 0.1, number + 0.9, where=owes, step="post", **WAITED_FOR
        )
        axes.fill_between(
            seconds, number + 0.1, number + 0.9, where=waits, step="post", color=WAITS, linewidth=0
        )
    axes.set(ylim=(0, len(names)), yticks=[it + 0.5 for it in range(len(names))])
    axes.set_yticklabels(names if len(names) <= MOST_NAMES else [], fontsize="small")
    axes.tick_params(axis="y", length=0)


def draw_targets(axes, samples):
    """Draws the target of each guest."""
    seconds = [it.seconds for it in samples]
    for number in range(len(samples[0].targets)):
        targets = [it.targets[number] for it in samples]
        axes.plot(
            seconds,
            targets,
            drawstyle="steps-post",
            color=GUESTS[number % len(GUESTS)],
            linewidth=1.8,
        )
    axes.set(ylabel="target, MiB", xlabel="seconds")
    axes.set_ylim(bottom=0)


def explain(library, axes, names):
    """Puts the legend beside the panels."""
    area, line = library.patches.Patch, library.lines.Line2D
    handles = [
        line([], [], label="promised to all", **PROMISED),
        line([], [], label="the host's budget", **BUDGET),
    ]
    handles.append(line([], [], label="lent to all", **LENT))
    handles.append(line([], [], label="held for all", color="#333333", linewidth=0.8))
    handles += [
        area(color=WAITS, label="waits"),
        area(label="is waited for", **WAITED_FOR),
        area(color=SHORT, label="all are short"),
    ]
    handles += [
        area(color=GUESTS[it % len(GUESTS)], label=name)
        for it, name in reversed(list(enumerate(names)))
    ]
    axes.legend(
        handles=handles,
        loc="upper left",
        bbox_to_anchor=(1.01, 1.02),
        borderaxespad=0,
        frameon=False,
    )


def draw(library, path, names, budget, promised, samples):
    """Draws the picture, and saves it as what its name says."""
    points = thinned(samples)
    if len(points) < 2:
        raise Fault("the run is too short for a picture")
    figure = library.figure.Figure(figsize=(10, 5.2))
    above, middle, below = figure.subplots(
        3, 1, sharex=True, gridspec_kw={"height_ratios": (10, 2, 4)}
    )
    figure.subplots_adjust(left=0.08, right=0.84, top=0.97, bottom=0.09, hspace=0.08)
    draw_held(above, points, budget, promised)
    draw_waits(middle, points, names)
    draw_targets(below, points)
    above.set_xlim(points[0].seconds, points[-1].seconds)
    explain(library, above, names)
    figure.savefig(path, dpi=120, metadata={"Date": None} if path.endswith(".svg") else None)
    print(f"drawn: {os.path.relpath(path)}")
