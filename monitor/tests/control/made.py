"""A host whose numbers are made: each differs from all others, and is more than 32 bits count, as
bytes where it counts pages. What has one is read in the sources, so that a field that is new has
one, too."""

import os
import re

import linux_kit


# What a number of each type begins at: a multiple of a prime is added. Of those that are no more
# than guests or processes there are few.
FIRST = {
    "uint64_t": 1 << 33,
    "int64_t": 1 << 34,
    "uint32_t": 1 << 31,
    "double": float(1 << 33),
    "unsigned": 1 << 20,
    "pid_t": 1 << 21,
}
PRIME = 104729
PHASES, GUESTS = 2, 6

# Flags of guests, a bit for each guest: no two are alike over all guests. States of guests; what
# each waits for in both phases, and how the waits end that the second doesn't have any longer.
FLAGS = {
    "strict": 0b000111,
    "answers": 0b011001,
    "reports": 0b101010,
    "cooperates": 0b110101,
    "pressed": 0b100110,
}
# How many statistics a guest reports. The first guest has one without a name, for swap in; and the
# second one a number that is above those of JSON.
TAGS, HUGE = 16, (1 << 64) - 1
STATES = ("ABSENT", "COMING", "WAITING", "STARTING", "READY", "LEAVING")
WAITS = (
    ("NOTHING", "ROOM"),
    ("ROOM", "DEFLATE"),
    ("DEFLATE", "RESET"),
    ("RESET", "NOTHING"),
    ("ROOM", "ROOM"),
    ("NOTHING", "NOTHING"),
)
ENDS = {1: "GRANTED", 2: "REFUSED", 3: "WITHDRAWN"}
LIMITS = (
    {"kind": "LIMIT_NONE", "path": ""},
    {"kind": "LIMIT_CGROUP", "path": "/a/b"},
    {"kind": "LIMIT_TMPFS", "path": "/c"},
)


def members(header, struct):
    """Returns the types of a struct's members, by their names, in their order."""
    with open(os.path.join(linux_kit.MONITOR, "backends", header), encoding="utf-8") as file:
        text = re.search(rf"(?s)struct {struct} \{{(.*?)\n\}};", file.read())[1]
    found = {}
    for line in re.sub(r"(?s)/\*.*?\*/", "", text).split(";"):
        its = re.fullmatch(r"(?s)\s*((?:const )?(?:struct |enum )?\w+)\s+(.*)", line)
        for name in its[2].split(",") if its else ():
            found[re.match(r"\s*\*?(\w+)", name)[1]] = its[1]
    return found


class Made:
    """Numbers, of which none was there before."""

    def __init__(self):
        self.count = 0

    def value(self, kind, name):
        """Returns a value of a type."""
        self.count += 1
        if kind in ("const char", "char"):
            return f"{name}-{self.count}"
        return FIRST[kind] + self.count * (0.5 if kind == "double" else PRIME)

    def struct(self, header, struct, **given):
        """Returns the values of a struct's members, of which some are given."""
        return {
            name: given[name] if name in given else self.value(kind, name)
            for name, kind in members(header, struct).items()
        }

    def guest(self, number, phase):
        """Returns a guest: in the second phase it has the state and the flags that the next one
        had."""
        flags = {
            name: bool((bits >> (number + phase) % GUESTS) & 1) for name, bits in FLAGS.items()
        }
        strict = flags.pop("strict")
        most = (
            dict.fromkeys(("most", "user", "memory", "start"), (1 << 32) - 1) if number == 0 else {}
        )
        terms = self.struct(
            "lender/view.h",
            "guest_terms",
            strict=strict,
            limit=LIMITS[number % len(LIMITS)],
            **most,
        )
        ended = self.struct(
            "lender/view.h",
            "ended_wait",
            what=f"WAITS_FOR_{WAITS[number][0]}",
            how=f"WAS_{ENDS.get(number, 'GRANTED')}",
        )
        ended["number"] = phase if number in ENDS else 0
        figures = {
            (it or TAGS) if number == 0 else it: self.value("uint64_t", "") for it in range(TAGS)
        }
        figures |= {number: HUGE} if number == 1 else {}
        state = {
            "state": f"GUEST_{STATES[(number + phase) % GUESTS]}",
            "waits_for": f"WAITS_FOR_{WAITS[number][phase]}",
        }
        return self.struct(
            "lender/view.h",
            "guest_view",
            terms=terms,
            ended=ended,
            refusals=FIRST["uint64_t"] - GUESTS + number,
            name=f"guest-{number}",
            figures=figures,
            figure_count=TAGS,
            **state,
            **flags,
        )

    def durations(self):
        """Returns counts and their sum."""
        return {
            "counts": [self.value("uint64_t", "") for _ in range(8)],
            "sum": self.value("double", ""),
        }

    def measures(self):
        """Returns what the host has measured."""
        counts = {
            name: [self.value("uint64_t", "") for _ in range(many)]
            for name, many in (("gone", 4), ("ungranted", 3))
        }
        durations = {it: self.durations() for it in ("waits", "decisions", "turns", "processor")}
        return self.struct("lender/measures.h", "measures", **counts, **durations)

    def decision(self, reason):
        """Returns a decision about two guests."""
        shares = [
            self.struct(
                "lender/journal.h",
                "share",
                name=f"guest-{it}",
                bound="BY_LOAN",
                tiers=self.tiers(),
                pressed=it == 1,
            )
            for it in range(2)
        ]
        return self.struct(
            "lender/journal.h",
            "decision",
            reason=reason,
            tier="VB_TIER_CACHE",
            who="guest-1",
            count=2,
            shares=Array("share", shares),
        )

    def tiers(self):
        """Returns what a guest has and can give (vb_policy.h)."""
        return {it: self.value("uint32_t", "") for it in ("pages", "spare")}


class Array:
    """An array of structs to which a pointer leads."""

    def __init__(self, of, values):
        self.of, self.values = of, values

    def __iter__(self):
        return iter(self.values)


class Figures(dict):
    """Statistics by their tags."""


def written(value):
    """Returns a value as C has it."""
    if isinstance(value, Figures):
        return "{" + ", ".join(f"{{{tag}, {figure}u}}" for tag, figure in value.items()) + "}"
    if isinstance(value, Array):
        return f"(const struct {value.of}[]){written(value.values)}"
    if isinstance(value, dict):
        return "{" + ", ".join(f".{name} = {written(it)}" for name, it in value.items()) + "}"
    if isinstance(value, list):
        return "{" + ", ".join(map(written, value)) + "}"
    if isinstance(value, bool):
        return str(value).lower()
    if isinstance(value, str):
        return value if re.match(r"[A-Z]+_", value) else f'"{value}"'
    return repr(value)


class MadeHost:
    """The values: of the host and its guests in each phase, decisions, measures, and what the
    control sockets count."""

    def __init__(self):
        made = Made()
        self.hosts = [
            made.struct(
                "lender/view.h", "host_view", guests=GUESTS, strict=True, tier=it, is_short=True
            )
            for it in ("cache", "short")
        ]
        self.hosts[1]["decisions"] = self.hosts[0]["decisions"] + 1
        self.guests = [[made.guest(it, phase) for it in range(GUESTS)] for phase in range(PHASES)]
        self.decisions = [made.decision("BY_PRESSURE"), made.decision("BY_MISSING")]
        self.measures = made.measures()
        self.counters = [made.struct("control/control.h", "control_counters") for _ in range(2)]

    def header(self):
        """Returns them as C."""
        guests = [
            [guest | {"figures": Figures(guest["figures"])} for guest in its] for its in self.guests
        ]
        return "".join(
            f"static const struct {kind} {name} = {written(values)};\n"
            for kind, name, values in (
                ("host_view", f"made_hosts[{PHASES}]", self.hosts),
                ("guest_view", f"made_guests[{PHASES}][{GUESTS}]", guests),
                ("decision", "made_decisions[]", self.decisions),
                ("measures", "made_measures", self.measures),
                ("control_counters", "made_counters[]", self.counters),
            )
        )

    def build(self):
        """Builds a host's program that shows them; returns its path."""
        folder = os.path.join(linux_kit.MONITOR, "out", "made")
        os.makedirs(folder, exist_ok=True)
        with open(os.path.join(folder, "made_values.h"), "w", encoding="utf-8") as file:
            file.write(self.header())
        return linux_kit.built("made/vhost_user_host")
