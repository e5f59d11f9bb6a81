"""The metrics of a host, made of its status: memory in bytes, time in seconds."""

from prometheus_client.core import (
    CounterMetricFamily,
    GaugeMetricFamily,
    HistogramMetricFamily,
    InfoMetricFamily,
)
from prometheus_client.exposition import generate_latest

# Of the host: the metric, the field of the status, and what it is.
HOST_BYTES = (
    ("budget", "budget", "Memory that the host is to hold at most"),
    ("floor", "floor", "Memory that each guest is to keep free"),
    ("held", "held", "Memory that all guests' files hold"),
    ("lent", "lent", "Memory that is lent to all guests"),
    ("missing", "missing", "Memory by which the guests can't give what is missing"),
    ("wanted", "wanted", "Memory that guests that wait take in the end"),
    ("least_budget", "least_budget", "Least budget with which nobody waits any longer"),
    ("overdrawn", "overdrawn", "Memory that is lent above the budget"),
)
HOST_COUNTS = (
    ("guests", "guests", "Guests that the host has"),
    ("guests_waiting", "waiting", "Guests that wait for memory"),
    ("guests_silent", "silent", "Guests whose statistics don't come"),
    ("guests_uncooperative", "uncooperative", "Guests that took memory back unasked"),
    ("guests_pressed", "pressed", "Guests whose own work waits for memory"),
    ("guests_migrating", "migrating", "Guests that leave for another host, or come from one"),
)
HOST_TOTALS = (
    ("looks", "looks", "Looks at what the guests hold"),
    ("looks_above_budget", "above", "Looks at which the guests held more than the budget"),
    ("decisions", "decisions", "Decisions about targets"),
    ("targets_changed", "changed", "Targets that were changed"),
    (
        "decisions_short",
        "shorts",
        "Decisions that found that the guests can't give what is missing",
    ),
    ("guests_admitted", "admitted", "Guests that found room"),
    ("guests_refused", "refused", "Guests that found no room"),
    ("shortages", "shortages", "Shortages that lasted for the host's patience"),
    ("command_failures", "command_failures", "Failures of the command for a shortage that lasts"),
    ("lines_dropped", "dropped", "Lines of the log that nobody read in time"),
)
CONTROL_TOTALS = (
    ("control_clients_accepted", "accepted", "Clients of a control socket that came"),
    (
        "control_clients_dropped",
        "dropped",
        "Clients of a control socket that were dropped as they left their answers unread",
    ),
    (
        "control_clients_turned_away",
        "turned_away",
        "Clients of a control socket that came as one too many",
    ),
    ("control_requests", "requests", "Requests of a control socket"),
    ("control_requests_refused", "refused", "Requests of a control socket that were refused"),
)

# Of each guest.
GUEST_BYTES = (
    ("memory", "memory", "Memory that the guest was promised"),
    ("held", "held", "Memory that the guest's files hold"),
    ("loan", "loan", "Memory that is lent to the guest"),
    ("asked", "asked", "Memory for which the guest waits"),
    ("excess", "excess", "Memory that the guest holds above its loan"),
    ("limit", "limit", "Memory that the guest's limit was set to last; 0 where it has none"),
    ("target", "target", "Memory that the host wants in the guest's balloon"),
    ("ballooned", "ballooned", "Memory in the guest's balloon"),
    ("free", "free", "Memory that the guest calls free"),
    ("available", "available", "Memory that the guest calls available"),
    ("spare", "spare", "Memory that the guest can spare, what is ballooned included"),
)
GUEST_SECONDS = (
    ("silent", "silent", "Time since the guest's last statistics"),
    ("process_silent", "process_silent", "Time since the guest's process answered last"),
    ("waiting", "waits", "Time for which the guest has waited for memory"),
)
GUEST_FLAGS = (
    ("ready", lambda it: it["state"] == "ready", "Whether the guest's driver is ready"),
    ("is_waiting", lambda it: it["waits_for"] != "nothing", "Whether the guest waits for memory"),
    ("answers", lambda it: it["answers"], "Whether the guest's statistics come"),
    ("cooperates", lambda it: it["cooperates"], "Whether the guest takes no memory back unasked"),
    (
        "pressed",
        lambda it: it.get("pressed", False),
        "Whether the guest's own work waits for memory",
    ),
    (
        "leaves",
        lambda it: it.get("migration") == "outgoing",
        "Whether the guest leaves for another host, or is saved",
    ),
    (
        "arrives",
        lambda it: it.get("migration") == "incoming",
        "Whether the guest comes from another host, or is loaded, and doesn't run yet",
    ),
)
# By the guest's own statistics, where it reports them: what there is now, and what there was since
# it booted. Its free and its available memory are above.
GUEST_STATISTICS = (
    ("total_memory_bytes", "total_memory", "Memory that the guest's kernel has"),
    ("disk_caches_bytes", "disk_caches", "Page cache of the guest"),
)
GUEST_STATISTICS_TOTALS = (
    ("swap_in_bytes", "swap_in", "Memory that the guest read back from swap"),
    ("swap_out_bytes", "swap_out", "Memory that the guest swapped out"),
    ("major_faults", "major_faults", "Page faults of the guest that read a disk"),
    ("minor_faults", "minor_faults", "Other page faults of the guest"),
    ("hugetlb_allocations", "hugetlb_allocations", "Huge pages that the guest allocated"),
    ("hugetlb_failures", "hugetlb_failures", "Huge pages that the guest found no memory for"),
    ("oom_kills", "oom_kills", "Processes that the guest killed for lack of memory"),
    ("alloc_stalls", "alloc_stalls", "Allocations of the guest that waited for reclaim"),
    ("async_scans_bytes", "async_scans", "Memory that the guest scanned in the background"),
    ("direct_scans_bytes", "direct_scans", "Memory that the guest's allocations scanned"),
    ("async_reclaims_bytes", "async_reclaims", "Memory that the guest reclaimed in the background"),
    ("direct_reclaims_bytes", "direct_reclaims", "Memory that the guest's allocations reclaimed"),
)
GUEST_TOTALS = (
    ("inflated_bytes", "inflated", "Memory that went into the guest's balloon"),
    ("deflated_bytes", "deflated", "Memory that came out of the guest's balloon"),
    ("reported_bytes", "reported", "Memory that the guest reported as free"),
    ("taken_bytes", "taken", "Memory that the guest took out of its balloon unasked"),
    ("granted_bytes", "granted", "Memory that was granted to the guest as it asked for it"),
    ("clients", "clients", "Clients that came to the guest's socket"),
    (
        "messages_lost",
        "lost",
        "Messages between the host and the guest's process that weren't read in time",
    ),
    ("limit_failures", "limit_failures", "Times that the guest's limit couldn't be written"),
)

# Up to which tier guests give: none, unused memory, page cache, their reserves; and where that
# isn't enough.
TIERS = ("none", "unused", "cache", "reserve", "short")

PREFIX = "bigvasta"


def gauge(name, what, values, label="guest"):
    """Returns a gauge; each value has the labels before it."""
    labels = [label] if values and values[0][0] else []
    family = GaugeMetricFamily(f"{PREFIX}_{name}", what, labels=labels)
    for key, value in values:
        family.add_metric(key, value)
    return family


def counter(name, what, values, label="guest"):
    """Returns a counter; each value has the labels before it."""
    labels = [label] if values and values[0][0] else []
    family = CounterMetricFamily(f"{PREFIX}_{name}", what, labels=labels)
    for key, value in values:
        family.add_metric(key, value)
    return family


def of_sockets(host, field):
    """Returns what a host's control sockets count, with the word for each."""
    return [([it], host[it][field]) for it in ("control", "status")]


def host_metrics(host):
    """Yields the metrics of the host."""
    build = InfoMetricFamily(f"{PREFIX}_build", "Versions of the host and of the core that decides")
    build.add_metric([], {"version": host["version"], "core": host.get("core", host["version"])})
    yield build
    for name, field, what in HOST_BYTES:
        if field in host:
            yield gauge(f"{name}_bytes", what, [([], host[field])])
    yield gauge(
        "held_peak_bytes",
        "The most memory that all guests' files held at a look",
        [([], host["counters"]["peak"])],
    )
    what = "Whether the guests wait for what isn't lent to them"
    yield gauge("strict", what, [([], float(host["strict"]))])
    for name, field, what in HOST_COUNTS:
        if field in host:
            yield gauge(name, what, [([], host[field])])
    if "tier" in host:
        tiers = [([it], float(it == host["tier"])) for it in TIERS]
        yield gauge("tier", "Up to which tier guests give memory", tiers, "tier")
    for name, field, what in HOST_TOTALS:
        if field in host["counters"]:
            yield counter(name, what, [([], host["counters"][field])])
    yield gauge(
        "control_clients", "Clients of a control socket", of_sockets(host, "clients"), "socket"
    )
    for name, field, what in CONTROL_TOTALS:
        yield counter(name, what, of_sockets(host, field), "socket")


def statistics_metrics(guests):
    """Yields what the guests report of themselves."""
    for make, rows in ((gauge, GUEST_STATISTICS), (counter, GUEST_STATISTICS_TOTALS)):
        for name, field, what in rows:
            told = [it for it in guests if field in it.get("statistics", {})]
            values = [([it["name"]], it["statistics"][field]) for it in told]
            if values:
                yield make(f"guest_{name}", what, values)


def guest_metrics(guests):
    """Yields the metrics of the guests."""
    here = [it for it in guests if it["state"] != "absent"]
    versions = InfoMetricFamily(
        f"{PREFIX}_guest_process", "Version of the guest's process", labels=["guest"]
    )
    for it in here:
        versions.add_metric([it["name"]], {"version": it["version"]})
    yield versions
    for name, field, what in GUEST_BYTES:
        yield gauge(f"guest_{name}_bytes", what, [([it["name"]], it[field]) for it in here])
    for name, field, what in GUEST_SECONDS:
        yield gauge(f"guest_{name}_seconds", what, [([it["name"]], it[field]) for it in here])
    for name, read, what in GUEST_FLAGS:
        yield gauge(f"guest_{name}", what, [([it["name"]], float(read(it))) for it in here])
    yield from statistics_metrics(here)
    for name, field, what in GUEST_TOTALS:
        yield counter(
            f"guest_{name}", what, [([it["name"]], it["counters"][field]) for it in guests]
        )


def histogram(name, what, durations):
    """Returns a histogram of durations: counts by their upper bounds, and their sum."""
    family = HistogramMetricFamily(f"{PREFIX}_{name}_seconds", what)
    buckets, total = [], 0
    for bound, count in zip([*map(str, durations["bounds"]), "+Inf"], durations["counts"]):
        total += count
        buckets.append((bound, total))
    family.add_metric([], buckets, durations["sum"])
    return family


# Of the host: what it has measured of itself.
DURATIONS = (
    ("wait", "waits", "Time for which a guest waited for memory until it was granted"),
    ("decision", "decisions", "Time that a decision about targets took"),
    ("loop", "turns", "Time that a turn of the host's loop took"),
)


def measured_metrics(measures):
    """Yields the metrics of what took time, and of guests that went."""
    for name, field, what in DURATIONS:
        yield histogram(name, what, measures[field])
    yield counter(
        "grants",
        "Grants of memory to guests that waited for it",
        [([], sum(measures["waits"]["counts"]))],
    )
    ungranted = [([end], count) for end, count in measures.get("ungranted", {}).items()]
    yield counter(
        "waits_ungranted",
        "Waits of guests for memory that ended without a grant, by how",
        ungranted,
        "end",
    )
    yield counter(
        "above_budget_seconds",
        "Time for which the guests held more than the budget",
        [([], measures["above"])],
    )
    gone = [([reason], count) for reason, count in measures["gone"].items()]
    yield counter("guest_gone", "Guests that went, by the reason", gone, "reason")


class Collector:
    """What the library takes: `look` returns a status. Where that is None, as no host answers,
    `bigvasta_up` is 0, and that is all."""

    def __init__(self, look):
        self.look = look

    def collect(self):
        """Yields all metrics."""
        status = self.look()
        yield gauge("up", "Whether the host answers", [([], float(status is not None))])
        if status is None:
            return
        yield from host_metrics(status["host"])
        yield from measured_metrics(status["host"]["measures"])
        yield from guest_metrics(status["guests"])


def metrics_of(status):
    """Returns the metrics of a status as Prometheus reads them."""
    return generate_latest(Collector(lambda: status))
