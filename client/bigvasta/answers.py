"""What a host answers: the fields of each answer that commands read, by their kinds. Others are
ignored, as later hosts add some."""

from typing import NamedTuple

# Numbers of the protocol have 64 bits and a sign; moments end with the year 9999.
MOST_COUNT, MOST_SECONDS = (1 << 63) - 1, 253402300799

MISSING = object()


class Maybe(NamedTuple):
    """The kind of a field that isn't there always, or that older hosts lack."""

    kind: object


def is_count(value):
    """Whether this is a count, or a size in bytes."""
    return type(value) is int and 0 <= value <= MOST_COUNT


def is_text(value):
    """Whether this is a text in Unicode: JSON may have halves of characters."""
    return isinstance(value, str) and not any("\ud800" <= it <= "\udfff" for it in value)


def is_flag(value):
    """Whether this is a truth value."""
    return isinstance(value, bool)


def is_seconds(value):
    """Whether this is a duration, or a moment."""
    return type(value) in (int, float) and 0 <= value <= MOST_SECONDS


def is_limit(value):
    """Whether this is a size, or null, which is no limit."""
    return value is None or is_count(value)


def is_text_or_null(value):
    """Whether this is a text, or null."""
    return value is None or is_text(value)


def is_refusal(value):
    """Whether this says why memory wasn't admitted, and by how much; or null."""
    return value is None or wrong_part({"for": is_text, "bytes": is_count}, value) is None


def are_counts(value):
    """Whether this is an object whose fields are counts."""
    return isinstance(value, dict) and all(
        is_text(name) and is_count(it) for name, it in value.items()
    )


def are_durations(value):
    """Whether this is a histogram: a count below each bound, and one above."""
    kind = {"bounds": [is_seconds], "counts": [is_count], "sum": is_seconds}
    return wrong_part(kind, value) is None and len(value["counts"]) == len(value["bounds"]) + 1


def fields(kind, names):
    """Returns these fields, each of one kind."""
    return dict.fromkeys(names.split(), kind)


SOCKET = fields(is_count, "clients accepted dropped turned_away requests refused")
HOST = {
    **fields(is_text, "version folder"),
    "strict": is_flag,
    "control": SOCKET,
    "status": SOCKET,
    **fields(
        is_count,
        "guests budget overdraft floor held lent missing overdrawn waiting silent uncooperative",
    ),
    **fields(Maybe(is_count), "patience reserve pressed migrating wanted least_budget"),
    **fields(Maybe(is_count), "most_guests most_budget lowest_budget keep"),
    "short": Maybe(is_flag),
    "differs": Maybe(
        [{"guest": is_text_or_null, **fields(is_text, "key file now"), "lasts": is_flag}]
    ),
    "tier": Maybe(is_text),
    **fields(Maybe(is_text_or_null), "on_short gives_first"),
    "counters": {
        **fields(is_count, "looks above peak decisions changed shorts admitted refused dropped"),
        **fields(Maybe(is_count), "shortages command_failures"),
    },
    "measures": {
        **fields(are_durations, "waits decisions turns"),
        "processor": Maybe(are_durations),
        "above": is_seconds,
        "gone": are_counts,
        "ungranted": Maybe(are_counts),
    },
}
GUEST = {
    **fields(is_text, "name socket version state waits_for"),
    **fields(is_seconds, "waits silent process_silent"),
    **fields(is_flag, "answers cooperates"),
    "pressed": Maybe(is_flag),
    "migration": Maybe(is_text),
    "migrating": Maybe(is_seconds),
    "statistics": Maybe(are_counts),
    "refused": Maybe(is_refusal),
    **fields(
        is_count,
        "process memory held loan asked excess limit target ballooned free available spare",
    ),
    "terms": {
        **fields(is_count, "least priority overhead"),
        "most": is_limit,
        "strict": is_flag,
        "limit": is_text_or_null,
        **fields(Maybe(is_limit), "user memory start"),
        "weight": Maybe(is_count),
    },
    "counters": fields(
        is_count, "inflated deflated reported taken granted clients lost limit_failures"
    ),
}
DECISION = {
    **fields(is_count, "number budget missing"),
    "tier": Maybe(is_text),
    **fields(Maybe(is_seconds), "seconds time"),
    **fields(is_text, "reason guest"),
    "shares": [{"guest": is_text, **fields(is_count, "old target"), "pressed": Maybe(is_flag)}],
}

CHANGE = {
    **fields(is_count, "change user process"),
    **fields(is_seconds, "seconds time"),
    **fields(is_text, "key was is"),
    **fields(Maybe(is_text), "guest by"),
}

# The answer to each request, an event, and what refuses a request.
ANSWERS = {
    "status": {"host": HOST, "guests": [GUEST]},
    **dict.fromkeys(("guest", "add", "renew"), {"guest": GUEST, "lasts": Maybe(is_flag)}),
    "remove": fields(Maybe(is_flag), "lasts lives_on"),
    "budget": {"budget": is_count, "lasts": Maybe(is_flag)},
    "floor": {"floor": is_count, "lasts": Maybe(is_flag)},
    "config": {"config": is_text},
    "log": {"decisions": [DECISION], **fields(is_count, "next lost")},
    "changes": {"changes": [CHANGE], **fields(is_count, "next lost")},
}
EVENT = {
    "event": is_text,
    "time": is_seconds,
    **fields(Maybe(is_text), "guest state waits_for reason migration"),
    "waits": Maybe(is_seconds),
    **fields(Maybe(is_count), "budget missing"),
    "decision": Maybe(DECISION),
    **fields(Maybe(is_count), "change user process"),
    **{"for": Maybe(is_text), "bytes": Maybe(is_count)},
    **fields(Maybe(is_text), "key was is by"),
}
REFUSAL = {"error": {"code": is_text, "text": is_text, "field": Maybe(is_text)}}


def parts(kind, value, place):
    """Yields the parts that a list or an object of a kind has to have: the kind of each, its value,
    and its place."""
    if isinstance(kind, list):
        yield from ((kind[0], it, f"{place}[{number}]") for number, it in enumerate(value))
        return
    for name, its in kind.items():
        part, below = value.get(name, MISSING), f"{place}.{name}" if place else name
        if not isinstance(its, Maybe):
            yield its, part, below
        elif part is not MISSING:
            yield its.kind, part, below


def wrong_part(kind, value, place=""):
    """Returns the place of the first part that isn't there, or isn't of its kind; None where all
    are as they should be."""
    if callable(kind):
        return None if kind(value) else place
    if not isinstance(value, type(kind)):
        return place
    return next(
        (found for it in parts(kind, value, place) if (found := wrong_part(*it)) is not None), None
    )
