"""What a plan says, as lines for a terminal, and as an object."""

from bigvasta.sizes import MIB, PAGE, mebibytes
from bigvasta.words import table

FIGURES = tuple("waits,a day,median,99%,worst,short,for,by,over,back,moved".split(","))
COLUMNS = ("budget", "promise", *FIGURES)

# What each column is; the times are seconds, the sizes MiB.
LEGEND = """budget, by, over, moved: MiB; promise: what is promised, by the budget
waits: part of the time in which guests wait; a day: seconds that a guest waits in a day; median,
99%, worst: seconds that an ask waits
short: how often the guests couldn't spare what is missing; for: seconds in all; by: at worst
over: what was lent of the overdraft, at worst; back: seconds in all until it came back"""


def in_mib(pages):
    """Returns pages as a column shows them."""
    return mebibytes(pages * PAGE)


def figures(answer):
    """Returns the columns of what was waited, lacked and moved."""
    return (
        f"{100 * answer.share():.3f}%",
        f"{answer.wait_a_day():.1f}",
        *(f"{answer.quantile(it):.1f}" for it in (0.5, 0.99, 1)),
        str(answer.shorts),
        f"{answer.short:.0f}",
        in_mib(answer.lacked),
        in_mib(answer.overdrawn),
        f"{answer.overdrawn_seconds:.0f}",
        in_mib(answer.moved),
    )


def row(answer):
    """Returns the columns of an answer."""
    return in_mib(answer.budget), f"{answer.promise():.2f}", *figures(answer)


def conclusion(plan, limit):
    """Returns the line that says which budget to set."""
    if plan.best is None:
        return f"none of these budgets has room, and waits of {limit:g} s a guest and day at most"
    best, budget = plan.best, -(-plan.best.budget * PAGE // MIB)
    return (
        f"budget {budget}M: {best.wait_a_day():.1f} s a guest and day are waited; "
        f"{best.promise():.2f} times as much is promised"
    )


def own_line(own):
    """Returns the line that says how the recorded host did itself."""
    return (
        f"the host itself: {own.wait_a_day:.1f} s a guest and day were waited; {own.promise:.2f} "
        f"times its {in_mib(own.budget)} MiB were promised"
    )


def lines(plan, limit, own):
    """Returns the table, the line that says which budget to set, and how the recorded host did
    itself, if that is known."""
    first = plan.answers[0]
    head = (
        f"{first.guests} guests, {in_mib(first.promised)} MiB promised at once, "
        f"{first.present / 3600:.1f} hours of guests"
    )
    last = [*([own_line(own)] if own else []), conclusion(plan, limit)]
    return [
        head,
        "",
        *table([COLUMNS, *map(row, plan.answers)]),
        "",
        *LEGEND.splitlines(),
        "",
        *last,
    ]


def plain(answer):
    """Returns an answer as an object: sizes in bytes, times in seconds."""
    return {
        "budget": answer.budget * PAGE,
        "promised": answer.promised * PAGE,
        "guests": answer.guests,
        "present": answer.present,
        "waited": answer.waited,
        "waited_share": answer.share(),
        "waited_a_day": answer.wait_a_day(),
        "asks": len(answer.waits),
        "asks_that_waited": sum(it > 0 for it in answer.waits),
        "median": answer.quantile(0.5),
        "p99": answer.quantile(0.99),
        "worst": answer.quantile(1),
        "worst_guest": answer.worst_guest,
        "worst_guest_waited": answer.worst_waited,
        "shorts": answer.shorts,
        "short_seconds": answer.short,
        "short_by": answer.lacked * PAGE,
        "overdrawn": answer.overdrawn * PAGE,
        "overdrawn_seconds": answer.overdrawn_seconds,
        "proceeded_alone": answer.proceeded,
        "let_pass": answer.passed,
        "above": answer.above * PAGE,
        "moved": answer.moved * PAGE,
        "decisions": answer.decisions,
    }


def document(plan, limit, own):
    """Returns the plan as an object."""
    host = own and {
        "budget": own.budget * PAGE,
        "promise": own.promise,
        "waited_a_day": own.wait_a_day,
    }
    return {
        "wait_seconds": limit,
        "budget": None if plan.best is None else plan.best.budget * PAGE,
        "host": host,
        "replays": [plain(it) for it in plan.answers],
    }
