"""A status as a host answers it, made by hand: sizes in MiB."""

MIB = 1 << 20

SIZES = "memory held loan asked excess limit target ballooned free available spare".split()
SUMS = "budget overdraft floor held lent missing overdrawn".split()
NOTHING = {"bounds": [], "counts": [0], "sum": 0}


def counts(names):
    """Returns counts of nothing."""
    return dict.fromkeys(names.split(), 0)


def guest(name, **fields):
    """Returns a guest that is ready, and has what is said."""
    sizes = {it: fields.pop(it, 0) * MIB for it in SIZES}
    return {
        "name": name,
        "socket": f"/run/bigvasta/{name}",
        "version": "1.2.3",
        "state": "ready",
        "waits_for": "nothing",
        **counts("waits silent process_silent process"),
        "answers": True,
        "cooperates": True,
        **sizes,
        "terms": {**counts("least priority overhead"), "most": None, "strict": True, "limit": None},
        "counters": counts("inflated deflated reported taken granted clients lost limit_failures"),
    } | fields


def status(guests, **fields):
    """Returns the answer of a host of these guests, which has what is said."""
    sums = {it: fields.pop(it, 0) * MIB for it in SUMS}
    socket = counts("clients accepted dropped turned_away requests refused")
    measures = dict.fromkeys(("waits", "decisions", "turns"), NOTHING) | {"above": 0, "gone": {}}
    host = {
        "version": "1.2.3",
        "folder": "/run/bigvasta",
        "strict": True,
        "control": socket,
        "status": socket,
        "guests": len(guests),
        **sums,
        **counts("waiting silent uncooperative"),
        "tier": "cache",
        "counters": counts("looks above peak decisions changed shorts admitted refused dropped"),
        "measures": measures,
    }
    return {"version": 1, "ok": True, "host": host | fields, "guests": guests}
