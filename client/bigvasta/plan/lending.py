"""What a host did in a recorded day: what was lent to each guest, what it asked for and what it was
granted, at each moment of the host's metrics."""

from typing import NamedTuple

from bigvasta.plan.days import DAY, Line
from bigvasta.plan.matrix import Key, result_of, series_by_key, table_of, tables_of
from bigvasta.plan.metrics import BUDGET, LENDING, MEMORY
from bigvasta.sizes import PAGE
from bigvasta.statuses import Usage


class Look(NamedTuple):
    """A guest at a moment: pages of its memory, of its loan, those that it asks for, and all that
    it was granted so far; and for how many seconds it has waited."""

    size: int
    loan: int
    asked: int
    granted: int
    waiting: float

    def wanted(self):
        """Returns all that it has asked for so far, in pages."""
        return self.granted + self.asked


class Moment(NamedTuple):
    """A host at a moment: its budget in pages, and the guests that are there by their names."""

    seconds: float
    frames: int
    guests: dict


class Own(NamedTuple):
    """How a recorded host did itself: its budget in pages, how many times that was promised, and
    the seconds that a guest waited in a day."""

    budget: int
    promise: float
    wait_a_day: float


def pages(line, cell):
    """Returns the whole pages of a cell."""
    size = line.size(cell)
    if size % PAGE:
        line.refuse(f"{cell}: {size} isn't whole pages of {PAGE} bytes")
    return size // PAGE


def look_of(line):
    """Returns what a row says of a guest."""
    look = Look(
        line.memory(),
        *(pages(line, it) for it in ("loan", "asked", "granted")),
        line.seconds("waiting"),
    )
    if look.loan + look.asked > look.size:
        line.refuse(
            f"loan and asked are {look.loan + look.asked} pages, and the guest has {look.size}"
        )
    return look


def rows_of(path, name, table):
    """Yields the moments of a table, and the line of each."""
    for at, cells in zip(table.index, table.to_dict("records")):
        yield at, Line(f"{path}: {name} at {at:.12g}", cells)


def add_guest(found, name, rows):
    """Adds a guest to the moments at which it has memory: one that comes has none yet."""
    size = None
    for at, line in rows:
        if at not in found:
            line.refuse("the host has no budget then")
        if not line.size("size"):
            continue
        look = look_of(line)
        if size not in (None, look.size):
            line.refuse(f"size: it had {size} pages before, and has {look.size} now")
        size, found[at].guests[name] = look.size, look


def read_lending(path):
    """Returns the moments of a recording by Prometheus' metrics."""
    try:
        with open(path, encoding="utf-8") as file:
            series = series_by_key(path, result_of(path, file.read()))
    except (OSError, UnicodeDecodeError) as fault:
        raise Usage(f"{path}: {getattr(fault, 'strerror', None) or fault}") from None
    hosts = sorted({it.host for it in series})
    if len(hosts) != 1:
        raise Usage(f"{path}: there are {len(hosts)} hosts, and one is wanted")
    budgets = table_of(path, "the host", series.pop(Key(hosts[0], ""), {}), BUDGET)
    found = {
        at: Moment(at, pages(line, "budget"), {}) for at, line in rows_of(path, "the host", budgets)
    }
    for name, table in tables_of(path, series, lambda _: MEMORY | LENDING).items():
        add_guest(found, name, rows_of(path, name, table))
    return [found[it] for it in sorted(found)]


def own_of(path):
    """Returns how a recorded host did itself; None where the recording doesn't have that, or the
    budget didn't stay the same."""
    try:
        moments = read_lending(path)
    except Usage:
        return None
    present = waited = 0.0
    for moment, after in zip(moments, moments[1:]):
        seconds = after.seconds - moment.seconds
        present += seconds * len(moment.guests)
        waited += seconds * sum(it.asked > 0 for it in moment.guests.values())
    budget, promised = moments[0].frames, max(
        sum(look.size for look in it.guests.values()) for it in moments
    )
    if present == 0 or any(it.frames != budget for it in moments):
        return None
    return Own(budget, promised / budget, waited / present * DAY)
