"""What a host of made numbers shows of itself: each field of an answer, an event and a metric has
its own number, in its own unit."""

import itertools
import time

import pytest
from bigvasta.connection import Connection
from bigvasta.picture import Shown, picture
from bigvasta.sizes import mebibytes
from hosts import Host, values
from installed import bigvasta, version
from made import MadeHost
from served import facts, serving
from waiting import eventually, patience_from_now

PAGE, KIB = 4096, 1024
ALL = (1 << 32) - 1

# What a number counts, and what is shown of it.
UNITS = {
    "pages": lambda it: it * PAGE,
    "kib": lambda it: it * KIB,
    "count": lambda it: it,
    "seconds": lambda it: it,
    "ms": lambda it: it / 1000,
    "flag": lambda it: it,
    "text": lambda it: it,
    "word": lambda it: it.split("_")[-1].lower(),
    "limit": lambda it: None if it == ALL else it * PAGE,
    "user": lambda it: None if it == ALL else it,
    "kernel": lambda it: {
        "NONE": None,
        "CGROUP": f"cgroup:{it['path']}",
        "TMPFS": f"tmpfs:{it['path']}",
    }[it["kind"].split("_")[1]],
}


def rows(unit, words):
    """Returns rows of one unit: a member's name and where an answer has it, `counters.` before it
    where it is there."""
    return {
        name: (place or name, unit)
        for name, _, place in (it.partition("=") for it in words.split())
    }


TERMS = {
    **rows("pages", "least overhead"),
    **rows("limit", "most memory start"),
    **rows("user", "user"),
    **rows("count", "priority weight"),
    **rows("flag", "strict"),
    **rows("kernel", "limit"),
}
COUNTERS_IN_PAGES = "granted inflated deflated reported taken discarded skipped"
COUNTERS = "limit_failures statistics told chains kicks clients lost refusals"
GUEST = {
    **rows("text", "name path=socket version migration"),
    **rows("count", "process"),
    **rows("word", "state waits_for"),
    **rows("kib", "held_kib=held"),
    **rows(
        "pages", "pages=memory loan excess asked limit target ballooned actual free available spare"
    ),
    **rows("flag", "answers reports cooperates pressed"),
    **rows("seconds", "waits silent process_silent migrating"),
    **rows("pages", " ".join(f"{it}=counters.{it}" for it in COUNTERS_IN_PAGES.split())),
    **rows("count", " ".join(f"{it}=counters.{it}" for it in COUNTERS.split())),
}
HOST = {
    **rows("text", "folder on_short gives_first tier"),
    **rows(
        "count", "guests most_guests reserve step waiting silent uncooperative pressed patience"
    ),
    **rows("count", "migrating"),
    **rows("pages", "budget most_budget lowest_budget keep overdraft floor lent short_by=missing"),
    **rows("pages", "wanted least_budget overdrawn"),
    **rows("kib", "held_kib=held peak_kib=counters.peak"),
    **rows("flag", "strict is_short=short"),
    **rows("ms", "period"),
    **rows(
        "count",
        " ".join(
            f"{it}=counters.{it}"
            for it in (
                "looks above decisions changed shorts admitted refused gone dropped shortages "
                "command_failures"
            ).split()
        ),
    ),
}
SHARE = rows("text", "name=guest") | rows("pages", "old target") | rows("flag", "pressed")
DECISION = {
    **rows("ms", "at=seconds"),
    **rows("word", "reason tier"),
    **rows("pages", "frames=budget floor missing"),
}
# The names of the tags of statistics, from 0 on: those of VIRTIO 1.1, 5.5.6.3, and of Linux 6.12
# (VIRTIO_BALLOON_S_NAMES).
STATISTICS = (
    "swap_in swap_out major_faults minor_faults free_memory total_memory available_memory "
    "disk_caches hugetlb_allocations hugetlb_failures oom_kills alloc_stalls async_scans "
    "direct_scans async_reclaims direct_reclaims"
).split()
MOST_SHOWN = (1 << 63) - 1
BOUNDS = [0.001, 0.005, 0.02, 0.1, 0.5, 2, 10]
GONE, UNGRANTED = ("left", "refused", "removed", "died"), ("refused", "withdrawn")


def shown(values, table):
    """Returns what is shown of a struct's members; each has its row."""
    answer = {"counters": {}}
    assert values.keys() == table.keys(), values.keys() ^ table.keys()
    for name, (place, unit) in table.items():
        *within, last = place.split(".")
        (answer["counters"] if within else answer)[last] = UNITS[unit](values[name])
    return (
        answer
        if answer["counters"]
        else {it: value for it, value in answer.items() if it != "counters"}
    )


def shown_guest(guest):
    """Returns what is shown of a guest."""
    other = ("ended", "figures", "figure_count", "refused_for", "refused_by")
    its = {name: it for name, it in guest.items() if name not in other}
    statistics = {
        STATISTICS[tag]: min(it, MOST_SHOWN)
        for tag, it in guest["figures"].items()
        if tag < len(STATISTICS)
    }
    return shown(its, GUEST | {"terms": ("terms", "text")}) | {
        "terms": shown(its["terms"], TERMS),
        "statistics": statistics,
        "refused": {"for": guest["refused_for"], "bytes": guest["refused_by"] * PAGE},
    }


def shown_host(made, phase):
    """Returns what is shown of the host."""
    measures = {
        name: it | {"bounds": BOUNDS} if isinstance(it, dict) else it
        for name, it in made.measures.items()
    }
    measures |= {
        "gone": dict(zip(GONE, made.measures["gone"])),
        "ungranted": dict(zip(UNGRANTED, made.measures["ungranted"][1:])),
    }
    sockets = dict(zip(("control", "status"), made.counters))
    own = {"version": version(), "measures": measures, "differs": [], "state": None}
    return shown(made.hosts[phase], HOST) | own | sockets


def shown_decision(made, phase):
    """Returns what is shown of the last decision of a phase; whom it is about is shown where it is
    about one."""
    its = dict(made.decisions[phase])
    shares = [dict(it) for it in its.pop("shares")]
    tiers = [it.pop("tiers") for it in shares]
    about = its.pop("who") if its["reason"] in ("BY_SPARE", "BY_PRESSURE") else ""
    told = {name: its[name] for name in DECISION}
    return shown(told, DECISION) | {
        "number": made.hosts[phase]["decisions"] - 1,
        "guest": about,
        "shares": [
            shown({name: share[name] for name in SHARE}, SHARE)
            | {"memory": its_tiers["pages"] * PAGE, "spare": its_tiers["spare"] * PAGE}
            for share, its_tiers in zip(shares, tiers)
        ],
    }


def differences(found, wanted):
    """Returns what isn't as it is wanted, by its name: what was found, and what should have
    been."""
    if not isinstance(found, dict) or not isinstance(wanted, dict):
        return {} if found == wanted else {"": (found, wanted)}
    inner = {
        name: differences(found.get(name, "none"), wanted.get(name, "none"))
        for name in found.keys() | wanted.keys()
    }
    return {
        f"{name}.{it}".strip("."): value for name, its in inner.items() for it, value in its.items()
    }


@pytest.fixture(scope="module")
def made():
    """The numbers, and the program of a host that shows them."""
    numbers = MadeHost()
    return numbers, numbers.build()


@pytest.fixture
def host(made, folder):
    """A host that shows made numbers; it has no guest."""
    it = Host(made[1], folder, str(folder), "--budget", "480", "--program", "/bin/true")
    it.lines.next(patience_from_now())
    yield it
    assert it.end() == 0, it.said()


def test_each_field_of_the_host(made, host):
    for phase in range(2):
        host.ask("floor", bytes=phase * PAGE)
        assert differences(host.status(), shown_host(made[0], phase)) == {}


def test_each_field_of_a_guest(made, host):
    for phase in range(2):
        host.ask("floor", bytes=phase * PAGE)
        for number, found in enumerate(host.ask("status")["guests"]):
            wanted = shown_guest(made[0].guests[phase][number])
            assert differences(found, wanted) == {} and host.guest(wanted["name"]) == found


def test_each_field_of_a_decision(made, host):
    for phase in range(2):
        host.ask("floor", bytes=phase * PAGE)
        log = host.ask("log", since=made[0].hosts[phase]["decisions"] - 1)
        decision = log["decisions"][0]
        # Its time of day is that of its moment by the monotonic clock.
        elapsed = decision.pop("time") - time.time() + time.monotonic()
        assert abs(elapsed - decision["seconds"]) < 1
        assert differences(decision, shown_decision(made[0], phase)) == {}
        assert (log["next"], log["lost"]) == (made[0].hosts[phase]["decisions"], 0)
        assert (
            host.ask("log", since=3, limit=1)["lost"] == made[0].hosts[phase]["decisions"] - 2 - 3
        )


# Seconds in which a host looks at its guests some times.
LOOKS = 0.5


def test_each_field_of_an_event(made, host):
    """From one phase to the next: what each guest does, by its states, flags and waits in
    made.py."""
    ends, budget = [it["ended"] for it in made[0].guests[1]], made[0].hosts[1]["budget"] * PAGE
    state = {
        it: {"event": "state", "state": it}
        for it in ("coming", "waiting", "starting", "ready", "leaving")
    }
    ended = [
        {
            "event": UNITS["word"](it["how"]),
            "waits_for": UNITS["word"](it["what"]),
            "waits": it["seconds"],
        }
        for it in ends
    ]
    waits = {it: {"event": "waits", "waits_for": it} for it in ("room", "deflate", "reset")}
    about = (
        ({"event": "arrived"}, state["coming"], waits["room"], {"event": "uncooperative"}),
        (ended[1], state["waiting"], waits["deflate"]),
        (
            ended[2],
            state["starting"],
            waits["reset"],
            {"event": "uncooperative"},
            {"event": "answers"},
        ),
        (ended[3], state["ready"]),
        (state["leaving"], {"event": "silent"}),
        ({"event": "gone"},),
    )
    its = made[0].hosts[1]
    short = {"event": "short", "guest": its["gives_first"], "missing": its["short_by"] * PAGE}
    wanted = [{"event": "budget", "budget": budget}, {"event": "enough"}, short]
    words = [it["migration"] for it in made[0].guests[1]]
    about = [(*its, {"event": "migration", "migration": it}) for its, it in zip(about, words)]
    wanted += [
        its | {"guest": f"guest-{number}"} for number, events in enumerate(about) for its in events
    ]
    wanted.append({"event": "decision", "decision": shown_decision(made[0], 1)})
    with Connection(host.control) as follower:
        events = follower.follow()
        host.ask("floor", bytes=PAGE)
        # All of what this host has changes with its phase, and test_audit.py looks at such changes.
        others = (it for it in events if it["event"] != "changed")
        found = list(itertools.islice(others, len(wanted)))
        # Looks after that tell of nothing that was told: what comes next is of the phase before.
        time.sleep(LOOKS)
        host.ask("floor", bytes=0)
        assert next(others)["event"] == "budget"
    last, begin = found[0]["number"] - 1, found[0]["time"]
    for it, its in zip(found, wanted):
        number = it.pop("number")
        assert (it.pop("version"), number > last, it.pop("time") - begin < 20) == (1, True, True)
        last = number
        it.get("decision", {}).pop("time", None)
        assert differences(it, its) == {}, (it, its)


# Metrics by what a status has: of the host, of each guest that isn't absent, of each guest.
METRICS = {
    "budget_bytes": "budget",
    "floor_bytes": "floor",
    "held_bytes": "held",
    "lent_bytes": "lent",
    "missing_bytes": "missing",
    "wanted_bytes": "wanted",
    "least_budget_bytes": "least_budget",
    "overdrawn_bytes": "overdrawn",
    "held_peak_bytes": "counters.peak",
    "strict": "strict",
    "guests": "guests",
    "guests_waiting": "waiting",
    "guests_silent": "silent",
    "guests_uncooperative": "uncooperative",
    "guests_pressed": "pressed",
    "guests_migrating": "migrating",
    "looks_total": "counters.looks",
    "looks_above_budget_total": "counters.above",
    "decisions_total": "counters.decisions",
    "targets_changed_total": "counters.changed",
    "decisions_short_total": "counters.shorts",
    "shortages_total": "counters.shortages",
    "command_failures_total": "counters.command_failures",
    "guests_admitted_total": "counters.admitted",
    "guests_refused_total": "counters.refused",
    "lines_dropped_total": "counters.dropped",
    "above_budget_seconds_total": "measures.above",
}
OF_SOCKETS = {
    "clients": "clients",
    "clients_accepted_total": "accepted",
    "clients_dropped_total": "dropped",
    "clients_turned_away_total": "turned_away",
    "requests_total": "requests",
    "requests_refused_total": "refused",
}
OF_GUESTS_HERE = {
    **{
        f"{it}_bytes": it
        for it in (
            *("memory", "held", "loan", "asked", "excess", "limit"),
            *("target", "ballooned", "free", "available", "spare"),
        )
    },
    "silent_seconds": "silent",
    "process_silent_seconds": "process_silent",
    "waiting_seconds": "waits",
    "answers": "answers",
    "cooperates": "cooperates",
    "pressed": "pressed",
}
# Of the statistics that a guest reports, by their names: what there is now, and what there was.
OF_STATISTICS = {
    **{f"{it}_bytes": it for it in ("total_memory", "disk_caches")},
    **{
        f"{it}_bytes_total": it
        for it in (
            "swap_in swap_out async_scans direct_scans async_reclaims direct_reclaims".split()
        )
    },
    **{
        f"{it}_total": it
        for it in (
            "major_faults minor_faults hugetlb_allocations hugetlb_failures oom_kills alloc_stalls"
        ).split()
    },
}
OF_GUESTS = {
    **{
        f"{it}_bytes_total": f"counters.{it}"
        for it in "inflated deflated reported taken granted".split()
    },
    "clients_total": "counters.clients",
    "messages_lost_total": "counters.lost",
    "limit_failures_total": "counters.limit_failures",
}
HISTOGRAMS = {"wait": "waits", "decision": "decisions", "loop": "turns"}


def found_in(answer, place):
    """Returns what an answer has at a place."""
    for name in place.split("."):
        answer = answer[name]
    return float(answer)


def histogram(name, durations):
    """Returns the metrics of durations: each bucket has those before it, too."""
    counts = list(itertools.accumulate(durations["counts"]))
    buckets = {
        f'bigvasta_{name}_seconds_bucket{{le="{bound}"}}': it
        for bound, it in zip((*map(float, BOUNDS), "+Inf"), counts)
    }
    return buckets | {
        f"bigvasta_{name}_seconds_count": counts[-1],
        f"bigvasta_{name}_seconds_sum": durations["sum"],
    }


def metrics_of(host, guests):
    """Returns each metric of a status."""
    wanted = {f"bigvasta_{name}": found_in(host, place) for name, place in METRICS.items()}
    for it in ("control", "status"):
        wanted |= {
            f'bigvasta_control_{name}{{socket="{it}"}}': found_in(host[it], place)
            for name, place in OF_SOCKETS.items()
        }
    for guest in guests:
        label = f'{{guest="{guest["name"]}"}}'
        wanted |= {
            f"bigvasta_guest_{name}{label}": found_in(guest, place)
            for name, place in OF_GUESTS.items()
        }
        if guest["state"] == "absent":
            continue
        wanted |= {
            f"bigvasta_guest_{name}{label}": found_in(guest, place)
            for name, place in OF_GUESTS_HERE.items()
        }
        wanted |= {
            f"bigvasta_guest_{name}{label}": float(guest["statistics"][place])
            for name, place in OF_STATISTICS.items()
            if place in guest["statistics"]
        }
        flags = {"ready": guest["state"] == "ready", "is_waiting": guest["waits_for"] != "nothing"}
        flags |= {"leaves": 0, "arrives": 0}  # its made word is neither
        wanted |= {f"bigvasta_guest_{name}{label}": it for name, it in flags.items()}
        wanted[
            f'bigvasta_guest_process_info{{guest="{guest["name"]}",version="{guest["version"]}"}}'
        ] = 1
    for name, its in HISTOGRAMS.items():
        wanted |= histogram(name, host["measures"][its])
    for name, label, its in ("guest_gone", "reason", "gone"), (
        "waits_ungranted",
        "end",
        "ungranted",
    ):
        wanted |= {
            f'bigvasta_{name}_total{{{label}="{it}"}}': value
            for it, value in host["measures"][its].items()
        }
    wanted |= {
        f'bigvasta_tier{{tier="{it}"}}': it == host["tier"]
        for it in ("none", "unused", "cache", "reserve", "short")
    }
    its = {
        "up": 1,
        f'build_info{{core="{version()}",version="{version()}"}}': 1,
        "grants_total": sum(host["measures"]["waits"]["counts"]),
    }
    return wanted | {f"bigvasta_{name}": it for name, it in its.items()}


def test_each_metric(made, host):
    pytest.importorskip("prometheus_client")
    for phase in range(2):
        host.ask("floor", bytes=phase * PAGE)
        ran = bigvasta(host.control, "metrics")
        wanted = metrics_of(
            shown_host(made[0], phase), [shown_guest(it) for it in made[0].guests[phase]]
        )
        assert differences(values(ran.stdout), wanted) == {}


def row_of(guest):
    """Returns what the page shows of a guest: its sizes in MiB, and the parts of its memory that it
    holds, could spare of that, and has on loan beyond it; and where its target is."""
    memory, held = guest["pages"] * PAGE, min(guest["held_kib"] * KIB, guest["pages"] * PAGE)
    loan, target, spare = (guest[it] * PAGE for it in ("loan", "target", "spare"))
    given = min(max(spare - guest["ballooned"] * PAGE, 0), held)
    parts = [held - given, given, max(min(loan, memory) - held, 0)]
    return {
        "name": guest["name"],
        "numbers": [f"{it / 2**20:.0f}" for it in (guest["held_kib"] * KIB, loan, target, spare)],
        "parts": [it / memory for it in parts],
        "mark": 1 - target / memory,
    }


def test_each_number_of_the_page(made, host):
    with serving(host.control) as (port, _):
        for phase in range(2):
            host.ask("floor", bytes=phase * PAGE)
            wanted = shown_host(made[0], phase)
            eventually(
                lambda: differences(facts(port)[1]["host"], wanted) == {},
                lambda: differences(facts(port)[1]["host"], wanted),
            )
            code, answer = facts(port)
            guests, most = made[0].guests[phase], max(it["pages"] for it in made[0].guests[phase])
            assert code == 200 and answer["guests"] == [shown_guest(it) for it in guests]
            for found, its in zip(answer["shown"]["guests"], guests):
                bar, row = found["bar"], row_of(its)
                assert (found["name"], found["numbers"]) == (row["name"], row["numbers"])
                assert bar["parts"] == pytest.approx(row["parts"], rel=1e-9)
                assert (bar["mark"], found["width"]) == pytest.approx(
                    (row["mark"], its["pages"] / most), rel=1e-9
                )


def words_of(guest, names):
    """Returns some of a guest's sizes as columns show them."""
    return [mebibytes(guest[it]) for it in names.split()]


def test_each_column_and_each_line(made, host):
    status = host.ask("status")
    its, guests = status["host"], status["guests"]
    sums = {it: mebibytes(its[it]) for it in ("budget", "held", "lent", "missing")}
    assert its["most_budget"] > its["budget"], "the made budget follows no machine"
    counts = ", ".join(
        f"{its[it]} {it}" for it in ("waiting", "silent", "uncooperative", "pressed", "migrating")
    )
    head, columns, *rest = bigvasta(host.control, "status").stdout.splitlines()
    assert (
        head
        == ", ".join(f"{name} {it}" for name, it in sums.items())
        + f" MiB; tier {its['tier']}; 6 guests, {counts}; version {version()}"
    )
    assert columns.split() == [
        "guest",
        "state",
        "memory",
        "held",
        "loan",
        "target",
        "balloon",
        "spare",
        "waits",
        "for",
    ]
    for guest, line in zip(guests, rest):
        wanted = [
            guest["name"],
            guest["state"],
            *words_of(guest, "memory held loan target ballooned spare"),
        ]
        assert line.split()[: len(wanted)] == wanted
    wanted, least = (mebibytes(its[it]) for it in ("wanted", "least_budget"))
    assert rest[len(guests)] == f"who waits takes {wanted} MiB: a budget of {least} is enough"
    head, *rest = [it.text for it in picture(status, 200, 24, Shown())]
    promised = mebibytes(sum(it["memory"] for it in guests))
    assert head == (
        f"budget {sums['budget']} of {mebibytes(its['most_budget'])}  held {sums['held']}  "
        f"lent {sums['lent']}  promised {promised}  missing {sums['missing']} MiB  "
        f"tier {its['tier']}"
    )
    for guest, line in zip(guests, rest[4:]):
        assert line.startswith(
            f"{guest['name']:<12}"
            + "".join(f"{it:>7}" for it in words_of(guest, "held loan target spare"))
        )


def test_each_line_of_a_guest(made, host):
    sizes = "memory held loan excess target ballooned free available spare"
    for guest in host.ask("status")["guests"]:
        terms = guest["terms"]
        most = ["none"] if terms["most"] is None else [mebibytes(terms["most"]), "MiB"]
        lines = [
            it.split() for it in bigvasta(host.control, "guest", guest["name"]).stdout.splitlines()
        ]
        wanted = [[name, it, "MiB"] for name, it in zip(sizes.split(), words_of(guest, sizes))]
        wanted += [
            ["least", mebibytes(terms["least"]), "MiB"],
            ["most", *most],
            ["priority", str(terms["priority"])],
            ["weight", str(terms["weight"])],
        ]
        wanted += [
            ["strict", "yes" if terms["strict"] else "no"],
            ["overhead", mebibytes(terms["overhead"]), "MiB"],
        ]
        wanted += (
            [["limit", mebibytes(guest["limit"]), "MiB,", "by", terms["limit"]]]
            if terms["limit"]
            else []
        )
        wanted += [["user", str(terms["user"])]] if terms["user"] is not None else []
        if terms["memory"] is not None:
            wanted += [["at", "most", mebibytes(terms["memory"]), "MiB", "of", "memory"]]
        if terms["start"] is not None:
            wanted += [["start", mebibytes(terms["start"]), "MiB"]]
        assert (
            lines[0] == f"{guest['name']}: {guest['state']}, at {guest['socket']}".split()
            and lines[1 : len(wanted) + 1] == wanted
        ), lines
        told = [[name, str(value)] for name, value in guest["statistics"].items()]
        assert len(told) >= len(STATISTICS) - 1 and lines[-len(told) :] == told
