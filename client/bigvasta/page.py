"""What the page of `bigvasta serve` shows: made of a status, as the screen of `bigvasta watch`."""

from bigvasta.picture import (
    NUMBERS,
    Shown,
    bar_of_guest,
    bar_of_host,
    head_line,
    numbers_of,
    ordered,
    state_line,
    wait_line,
)
from bigvasta.words import plain


def line(it):
    """Returns a line as an object."""
    return {"text": plain(it.text), "kind": it.kind}


def row(guest, scale):
    """Returns what is shown of a guest: its bar is as wide as its memory is of the largest
    guest's."""
    memory = guest["memory"]
    return {
        "name": plain(guest["name"]),
        "numbers": numbers_of(guest),
        "width": memory / scale if memory else 0,
        "bar": bar_of_guest(guest)._asdict() if memory else None,
        "wait": line(wait_line(guest)),
    }


def shown(status, hour):
    """Returns what is shown of a status, and of the hour before."""
    host, guests, how = status["host"], status["guests"], Shown()
    scale = max((it["memory"] for it in guests), default=0)
    return {
        "lines": [line(head_line(host, guests)), line(state_line(host, how, ""))],
        "bar": bar_of_host(host, guests)._asdict(),
        "columns": NUMBERS,
        "guests": [row(it, scale) for it in ordered(guests, how.sort)],
        "hour": hour,
    }
