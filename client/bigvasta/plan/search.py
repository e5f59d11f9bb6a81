"""What is tried, from the tightest to the loosest, and the tightest that serves: of a host its
budgets, of a fleet its promises."""

from typing import NamedTuple

from bigvasta.plan.replay import promised_by, replay

# Without a range: from this part of what is promised on.
LEAST_PART = 4


class Plan(NamedTuple):
    """What was tried, from the tightest to the loosest; and the answer of the tightest that serves,
    or None."""

    answers: tuple
    best: object


def spread(first, last, steps):
    """Returns whole numbers at equal distances, the ends among them."""
    return sorted(
        {first + (last - first) * it // steps for it in range(steps + 1)}, reverse=last < first
    )


def tightest(answers, limit):
    """Returns the number of the answer from which on guests have room, and wait no longer than the
    limit in a day; None where the last one fails."""
    found = None
    for number in range(len(answers) - 1, -1, -1):
        if answers[number].above > 0 or answers[number].wait_a_day() > limit:
            break
        found = number
    return found


def search(try_all, ends, steps, limit):
    """Tries what lies between the ends, the tighter of which comes first: in steps, and then once
    more between the last that doesn't serve and the first that does."""
    tried = spread(*ends, steps)
    answers = list(try_all(tried))
    found = tightest(answers, limit)
    if found:
        between = spread(tried[found - 1], tried[found], steps)[1:-1]
        answers[found:found] = try_all(between)
        found = tightest(answers, limit)
    return Plan(tuple(answers), None if found is None else answers[found])


def plan(library, day, terms, limit, budgets, steps):
    """Tries the budgets of a range; without one those that may serve. All else is as in these
    terms."""
    promised = promised_by(day)
    ends = budgets or (max(promised // LEAST_PART, 1), promised)
    return search(
        lambda frames: [replay(library, day, terms._replace(frames=it)) for it in frames],
        ends,
        steps,
        limit,
    )
