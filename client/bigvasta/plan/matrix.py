"""A host's own metrics as Prometheus hands them out: the answer of query_range, whose result is a
matrix, a series of values for each metric of a guest."""

import json
import sys
from typing import NamedTuple

import pandas

from bigvasta.plan.days import Line
from bigvasta.plan.metrics import BUDGET, CELLS, KNOWN, STALLS, TARGET
from bigvasta.plan.recording import Recording
from bigvasta.sizes import PAGE
from bigvasta.statuses import Usage

# Prometheus rounds times to milliseconds: what two values may be apart beyond a step.
TOLERANCE = 0.0015

# The greatest moment that can be one: JSON may have any number of digits, and no number.
MOST = sys.float_info.max


class Key(NamedTuple):
    """Whose a series is: a guest's of a host, or the host's own, where the guest is empty."""

    host: str
    guest: str


def used_by_metrics(line, size):
    """Returns the bytes that a guest uses: those that are neither available nor in its balloon.
    These two are looked at one after the other, so they may be more than its memory together. A
    page at least is used: metrics don't say that a guest is reset.
    """
    return max(size - line.part("available", size) - line.part("ballooned", size), PAGE)


def result_of(path, text):
    """Returns the series of an answer, as it has them."""
    try:
        answer = json.loads(text)
    except (ValueError, RecursionError) as fault:
        raise Usage(f"{path}: this is no JSON: {fault}") from None
    its = answer if isinstance(answer, dict) else {}
    if its.get("status") != "success":
        raise Usage(f"{path}: this is no answer of success: {its.get('error', 'it has no status')}")
    data = its.get("data")
    kind, series = (
        data.get(it) if isinstance(data, dict) else None for it in ("resultType", "result")
    )
    if kind != "matrix" or not isinstance(series, list):
        raise Usage(f"{path}: the result is {kind!r}, and no matrix, which query_range answers")
    return series


def point(place, found):
    """Returns the moment and the text of a value."""
    pair = found if isinstance(found, list) and len(found) == 2 else (None, None)
    if (
        type(pair[0]) not in (int, float)
        or not abs(pair[0]) <= MOST
        or not isinstance(pair[1], str)
    ):
        raise Usage(f"{place}: {json.dumps(found)} is no pair of a time and a value")
    return float(pair[0]), pair[1]


def labels_of(place, found):
    """Returns the metric of a series, whose it is, and its values."""
    labels, values = (
        found.get(it) if isinstance(found, dict) else None for it in ("metric", "values")
    )
    if not isinstance(labels, dict) or not isinstance(values, list) or not values:
        raise Usage(f"{place} has no labels, or no values")
    metric, guest = labels.get("__name__"), labels.get("guest")
    if not isinstance(metric, str) or metric not in KNOWN:
        raise Usage(f"{place}: the metric {metric!r} is none of {', '.join(KNOWN)}")
    if metric in BUDGET:
        guest = ""
    elif not isinstance(guest, str) or not guest:
        raise Usage(f"{place} has no label guest")
    return metric, Key(str(labels.get("instance", "")), guest), values


def series_of(path, number, found):
    """Returns whose a series is, and its values by their moments."""
    metric, key, values = labels_of(f"{path}: series {number}", found)
    place = f"{path}: {metric} of {key.guest}" if key.guest else f"{path}: {metric}"
    times, texts = zip(*(point(place, it) for it in values))
    for before, after in zip(times, times[1:]):
        if after <= before:
            raise Usage(f"{place}: {after:.12g} isn't after {before:.12g}, the time before")
    return key, pandas.Series(texts, index=times, name=KNOWN[metric])


def series_by_key(path, result):
    """Returns the series of each guest, and of each host."""
    found = {}
    for number, it in enumerate(result, 1):
        key, series = series_of(path, number, it)
        others = found.setdefault(key, {})
        if series.name in others:
            raise Usage(f"{path}: {key.guest or 'the host'} has {series.name} twice")
        others[series.name] = series
    return found


def table_of(path, name, series, cells):
    """Refuses a guest that lacks one of these metrics; returns its values as a table, a row a
    moment."""
    for metric, cell in cells.items():
        if cell not in series:
            raise Usage(f"{path}: {name} has no series {metric}")
    table = pandas.concat([series[it] for it in cells.values()], axis=1).sort_index()
    holes = table.isna().stack()
    for at, cell in holes.index[holes]:
        raise Usage(f"{path}: {name} at {at:.12g}: {cell} has a hole")
    return table


def demand_steps(path, tables):
    """Refuses a guest without values where a step of the query would have some: the least time
    between two values is a step."""
    apart = {name: table.index.to_series().diff().dropna() for name, table in tables.items()}
    step = min((it.min() for it in apart.values() if len(it)), default=0)
    for name, its in apart.items():
        for at, seconds in its[its > step + TOLERANCE].items():
            raise Usage(
                f"{path}: {name} at {at:.12g}: there is a hole of {seconds:.12g} s before it, "
                f"where values are {step:.12g} s apart"
            )


def cells_of(series):
    """Returns the metrics of which a guest's day is made: its counters, too, where it has some."""
    stalls = {metric: cell for metric, cell in STALLS.items() if cell in series}
    return CELLS | stalls | (TARGET if stalls else {})


def tables_of(path, series, cells_of):
    """Returns the table of each guest by its name, with these metrics. Guests of several hosts are
    named with their host's instance."""
    keys = [it for it in series if it.guest]
    single = len({it.host for it in keys}) == 1
    tables = {}
    for key in keys:
        name = key.guest if single else f"{key.host}/{key.guest}"
        tables[name] = table_of(path, name, series[key], cells_of(series[key]))
    demand_steps(path, tables)
    return tables


def read_matrix(calls, path, text):
    """Returns what an answer says of the guests."""
    recording = Recording(calls)
    found = series_by_key(path, result_of(path, text))
    for name, table in tables_of(path, found, cells_of).items():
        for at, cells in zip(table.index, table.to_dict("records")):
            recording.add(
                Line(f"{path}: {name} at {at:.12g}", {"guest": name, "seconds": str(at), **cells}),
                used_by_metrics,
            )
    return recording
