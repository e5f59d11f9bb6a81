"""Reads a recorded day of a file: CSV, or what Prometheus answers to query_range."""

import csv
import io

from bigvasta.plan.days import Line
from bigvasta.plan.matrix import read_matrix
from bigvasta.plan.recording import Recording
from bigvasta.plan.telling import BALLOON, COUNTERS, OTHERS
from bigvasta.statuses import Usage

# What each recording has; what is free is asked for before page cache is.
COLUMNS = ("guest", "seconds", "size", "free")


def used_by_used(line, size):
    """Returns the bytes that a guest uses, where a line says that."""
    return line.part("used", size)


def used_by_available(line, size):
    """Returns the bytes that a guest uses, where a line says what it could still use beside its
    balloon."""
    ballooned = 0 if line.lacks("ballooned") else line.part("ballooned", size)
    return max(size - line.part("available", size) - ballooned, 0)


# One of these columns is there, too.
MEASURES = {"used": used_by_used, "available": used_by_available}


def measure_of(place, names):
    """Returns what says how much a guest uses; refuses other columns than there are."""
    known = (*COLUMNS, *MEASURES, *(it for it in OTHERS if it not in COLUMNS))
    for name in names:
        if name not in known:
            raise Usage(f"{place}: the column {name!r} is none of {', '.join(known)}")
        if names.count(name) > 1:
            raise Usage(f"{place}: the column {name} is there twice")
    for name in COLUMNS:
        if name not in names:
            raise Usage(f"{place}: there is no column {name}")
    for name, other in ((it, needs) for it in COUNTERS for needs in BALLOON if it in names):
        if other not in names:
            raise Usage(
                f"{place}: there is a column {name}, and no column {other}: a balloon that "
                "inflates has its guest reclaim"
            )
    measures = [it for it in MEASURES if it in names]
    if len(measures) != 1:
        raise Usage(
            f"{place}: there has to be a column used or a column available, and not "
            f"{'both' if measures else 'neither'}"
        )
    return MEASURES[measures[0]]


def read_table(calls, path, text):
    """Returns what a table says, by its lines."""
    recording, rows = Recording(calls), csv.reader(io.StringIO(text, newline=""), strict=True)
    names = [it.strip() for it in next(rows, [])]
    if not names:
        raise Usage(f"{path}: there are no rows")
    measure = measure_of(f"{path}:1", names)
    for cells in rows:
        place = f"{path}:{rows.line_num}"
        if len(cells) != len(names):
            raise Usage(f"{place}: there are {len(cells)} cells, and {len(names)} columns")
        recording.add(Line(place, dict(zip(names, cells))), measure)
    return recording


def read(calls, path):
    """Returns the recorded day of a file; the library's calls say who is pressed."""
    try:
        with open(path, encoding="utf-8-sig", newline="") as file:
            text = file.read()
        recording = (
            read_matrix(calls, path, text)
            if text.lstrip().startswith("{")
            else read_table(calls, path, text)
        )
    except OSError as fault:
        raise Usage(f"{path}: {fault.strerror or fault}") from None
    except (csv.Error, UnicodeDecodeError) as fault:
        raise Usage(f"{path}: this is no CSV in UTF-8: {fault}") from None
    return recording.day(path)
