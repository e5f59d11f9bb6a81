"""`bigvasta status`: the host and its guests, once."""

from bigvasta.picture import COUNTS
from bigvasta.sizes import mebibytes
from bigvasta.subcommands import ask
from bigvasta.waits import words_of
from bigvasta.words import table

COLUMNS = ("guest", "state", "memory", "held", "loan", "target", "balloon", "spare", "waits for")


def row(guest):
    """Returns the columns of a guest."""
    sizes = (
        mebibytes(guest[it]) for it in ("memory", "held", "loan", "target", "ballooned", "spare")
    )
    return (guest["name"], guest["state"], *sizes, words_of(guest))


def summary(host):
    """Returns the line about the host."""
    parts = [f"{it} {mebibytes(host[it])}" for it in ("budget", "held", "lent", "missing")]
    counts = [f"{host['guests']} guests"] + [f"{host[it]} {it}" for it in COUNTS if host.get(it)]
    tier = f"tier {host['tier']}; " if "tier" in host else ""
    return f"{', '.join(parts)} MiB; {tier}{', '.join(counts)}; version {host['version']}"


def demand(host):
    """Yields the line about what guests that wait take in the end, and the budget for that."""
    if host.get("wanted"):
        least = mebibytes(host["least_budget"])
        yield f"who waits takes {mebibytes(host['wanted'])} MiB: a budget of {least} is enough"


def others(host, guests):
    """Yields the line about processes that are of another version than the host: they serve on
    since before an upgrade."""
    found = [it for it in guests if it["process"] and it["version"] != host["version"]]
    if found:
        words = [f"{it['name']} {it['version'] or 'unknown'}" for it in found]
        yield f"processes of another version: {', '.join(words)}"


def differences(host):
    """Yields the lines about what is otherwise than the configuration file says."""
    for it in host.get("differs", ()):
        whose = f"{it['guest']}: " if it["guest"] else ""
        until = "" if it["lasts"] else " until the host restarts"
        yield f"{whose}{it['key']} is {it['now']}{until}, and {it['file']} in the file"


def lines(answer):
    """Returns the lines of the status."""
    host, guests = answer["host"], answer["guests"]
    rows = [COLUMNS, *map(row, guests)]
    return [
        summary(host),
        *table(rows, left=(0, 1, len(COLUMNS) - 1)),
        *demand(host),
        *others(host, guests),
        *differences(host),
    ]


def names(answer):
    """Returns the names of the guests."""
    return [it["name"] for it in answer["guests"]]


def run(asked):
    """Prints the status."""
    ask(asked, "status", names if asked.names else lines)


def add(commands):
    """Adds the subcommand."""
    words = commands.add(
        "status",
        run,
        "the host and its guests, in MiB",
        "Shows the host and its guests. Columns are in MiB.",
    )
    words.add_argument(
        "--names", action="store_true", help="print the names of the guests alone, one a line"
    )
