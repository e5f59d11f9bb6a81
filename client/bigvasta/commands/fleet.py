"""`bigvasta fleet`: many hosts, a line each, and which of them has room for another guest."""

import json
import resource
import threading
import time
from typing import NamedTuple

from bigvasta.commands.plan import PLACES
from bigvasta.connection import away
from bigvasta.fetching import SCHEME, address_of, connect
from bigvasta.picture import promised_to
from bigvasta.plan import room
from bigvasta.sizes import PAGE, mebibytes, pages_of
from bigvasta.source import PATIENCE
from bigvasta.statuses import AWAY, DONE, PART, Fault, Unclear
from bigvasta.subcommands import AS_JSON
from bigvasta.words import say, table

# Files beside those of the hosts that are asked.
OTHER_FILES = 64

COLUMNS = ("host", "budget", "held", "lent", "promise", "short", "waiting")


class Seen(NamedTuple):
    """A host, and its status, or why there is none; and by how many pages a guest lacks room
    there, or None."""

    place: str
    status: object
    fault: object
    lacks: object = None

    def row(self):
        """Returns the columns of a host that answers: a promise is by the budget."""
        host, guests = self.status["host"], self.status["guests"]
        budget, held, lent, short = (
            mebibytes(host[it]) for it in ("budget", "held", "lent", "missing")
        )
        promise = f"{promised_to(guests) / max(host['budget'], 1):.2f}"
        pressed = ", ".join(it["name"] for it in guests if it.get("pressed"))
        columns = (self.place, budget, held, lent, promise, short, str(host["waiting"]))
        return (*columns, *self.fits(), pressed)

    def is_full(self):
        """Returns whether there is no place for another guest; an older host doesn't say how many
        there may be."""
        return len(self.status["guests"]) >= self.status["host"].get("most_guests", PLACES)

    def fits(self):
        """Returns the column that says whether there is room for a guest, where that is asked."""
        if self.lacks is None:
            return ()
        if self.is_full():
            return ("full",)
        return (f"lacks {mebibytes(self.lacks * PAGE)}" if self.lacks else "fits",)

    def document(self):
        """Returns it as an object."""
        if self.status is None:
            return {"at": self.place, **away(self.fault)}
        lacks = {} if self.lacks is None else {"lacks": self.lacks * PAGE}
        return {"at": self.place, **self.status, **lacks}


def look(place, found):
    """Asks a host for its status, and notes what came of it."""
    try:
        with connect(place, PATIENCE) as host:
            found[place] = Seen(place, host.ask("status"), None)
    except Fault as fault:
        found[place] = Seen(place, None, fault)


def allow_files(count):
    """Allows the files that this number of hosts needs, as far as this process may."""
    least, most = resource.getrlimit(resource.RLIMIT_NOFILE)
    wanted = min(count + OTHER_FILES, most)
    if least < wanted:
        resource.setrlimit(resource.RLIMIT_NOFILE, (wanted, most))


def look_at_all(places):
    """Returns what came of each host: all are asked beside each other, and none is waited for any
    longer than for one."""
    allow_files(len(places))
    found, until = {}, time.monotonic() + PATIENCE
    threads = [threading.Thread(target=look, args=(it, found), daemon=True) for it in places]
    for it in threads:
        it.start()
    for it in threads:
        it.join(max(until - time.monotonic(), 0))
    late = Unclear("the host doesn't answer in time")
    return [found.get(it) or Seen(it, None, late) for it in places]


def lines(hosts, pages):
    """Returns a line a host, in their order; their sums, and the first that has room."""
    head = (*COLUMNS, *(() if pages is None else ("room",)), "pressed")
    here = [it for it in hosts if it.status]
    shown = iter(table([head, *(it.row() for it in here)], left=(0, len(head) - 1)))
    width = max(map(len, [COLUMNS[0], *(it.place for it in here)]))
    yield next(shown)
    for it in hosts:
        yield next(shown) if it.status else f"{it.place:<{width}}  {it.fault}"
    short = sum(it.status["host"]["missing"] > 0 for it in here)
    yield f"{len(hosts)} hosts, {len(hosts) - len(here)} away, {short} short"
    if pages is not None:
        found = (it.place for it in here if it.lacks == 0 and not it.is_full())
        first = next(found, "no host")
        yield f"a guest of {mebibytes(pages * PAGE)} MiB has room on {first}"


def run(asked):
    """Prints what hosts say of themselves; returns the exit status."""
    for it in asked.hosts:
        if it.startswith(SCHEME):
            address_of(it)
    pages = None if asked.fits is None else pages_of(asked.fits, "--fits")
    lacks = None if pages is None else room.lacks_of(asked.library, pages)
    hosts = [
        it._replace(lacks=lacks(it.status)) if lacks and it.status else it
        for it in look_at_all(asked.hosts)
    ]
    say(*((json.dumps(it.document()) for it in hosts) if asked.json else lines(hosts, pages)))
    away = [it for it in hosts if it.status is None]
    return DONE if not away else PART if len(away) < len(hosts) else AWAY


def add(commands):
    """Adds the subcommand, which asks many hosts."""
    words = commands.own.add_parser(
        "fleet",
        help="many hosts, a line each",
        description=(
            "Shows hosts, a line each: sizes in MiB, the promise by the budget, by how much guests "
            "are short, and who is pressed. With --fits, which has room for another guest."
        ),
    )
    words.add_argument(
        "hosts",
        metavar="HOST",
        nargs="+",
        help="the path of a host's socket, or http://HOST:PORT of its `bigvasta serve`",
    )
    words.add_argument("--fits", metavar="SIZE", help="the memory of another guest, such as 4G")
    words.add_argument("--library", metavar="FILE", help="the library, libvb.so, for --fits")
    words.add_argument("--json", action="store_true", help=AS_JSON)
    words.set_defaults(run=run)
