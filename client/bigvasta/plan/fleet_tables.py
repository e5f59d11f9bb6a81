"""What a plan of a fleet says, as lines for a terminal, and as an object."""

from bigvasta.plan import tables
from bigvasta.sizes import PAGE
from bigvasta.words import table

COLUMNS = ("promise", "hosts", "away", *tables.FIGURES)

LEGEND = """promise: what a host may promise, by its budget; hosts: how many have guests; away:
guests that find no host; by, over, moved: MiB
"""


def row(answer):
    """Returns the columns of an answer."""
    return (
        f"{answer.promise():.2f}",
        str(len(answer.hosts)),
        str(answer.away),
        *tables.figures(answer.total),
    )


def conclusion(plan, limit):
    """Returns the line that says how much to promise."""
    best = plan.best
    if best is None:
        return f"none of these promises has room, and waits of {limit:g} s a guest and day at most"
    away = f"; {best.away} guests find no host" if best.away else ""
    return (
        f"promise {best.promise():.2f} times the budget: {best.wait_a_day():.1f} s a guest and "
        f"day are waited, on {len(best.hosts)} hosts{away}"
    )


def lines(plan, limit):
    """Returns the table, and the line that says how much to promise."""
    first = plan.answers[0]
    budget = next(iter(first.hosts.values())).budget
    head = f"{first.total.guests + first.away} guests, hosts of {tables.in_mib(budget)} MiB"
    legend = [*LEGEND.splitlines(), *tables.LEGEND.splitlines()[1:]]
    return [
        head,
        "",
        *table([COLUMNS, *map(row, plan.answers)]),
        "",
        *legend,
        "",
        conclusion(plan, limit),
    ]


def plain(answer):
    """Returns an answer as an object: of all hosts together, and of each."""
    hosts = [{"host": number + 1, **tables.plain(it)} for number, it in answer.hosts.items()]
    return {
        "promise": answer.promise(),
        "away": answer.away,
        "together": tables.plain(answer.total),
        "hosts": hosts,
    }


def document(plan, limit):
    """Returns the plan as an object."""
    budget = next(iter(plan.answers[0].hosts.values())).budget
    return {
        "wait_seconds": limit,
        "budget": budget * PAGE,
        "promise": None if plan.best is None else plan.best.promise(),
        "replays": [plain(it) for it in plan.answers],
    }
