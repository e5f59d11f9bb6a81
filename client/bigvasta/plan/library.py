"""The calls of vb.h, vb_host.h and vb_policy.h that a replay makes, by ctypes. What they decide is
theirs: nothing of it is here."""

import ctypes
import os

from bigvasta import __version__
from bigvasta.statuses import Usage

# Of vb.h: that a call was right, and the version, whose last number may differ.
OK = 0
VERSION = int.from_bytes(bytes(map(int, __version__.split("."))), "big")

# Of vb_host.h: the lines, and the kinds of events.
LINE_DEFLATES, LINE_RESETS, LINE_ARRIVALS = 0, 1, 2
HEARS, WANTS, ARRIVES, TAKES_OVER = 1, 4, 6, 8
BUDGET, PREFERS, DEFERS = 10, 11, 12

# How many milliseconds nothing moves on a host that stands still.
STANDS = 1000

# Of vb_policy.h: whether a guest's statistics are at hand, and free memory that they don't tell.
CONTACT_STARTS, CONTACT_HEARD, CONTACT_AWAY = 0, 2, 3
UNTOLD = (1 << 32) - 1

HERE = os.path.dirname(os.path.realpath(__file__))

# Where the library is looked for: where a package puts it, and where `make -C monitor shared` does.
PLACES = (
    "/usr/lib/bigvasta/libvb.so",
    *(
        os.path.normpath(os.path.join(HERE, "../../../monitor/out", it, "libvb.so"))
        for it in ("library", "reference")
    ),
)

NUMBER, LONG, COUNT, ROOM = ctypes.c_uint32, ctypes.c_uint64, ctypes.c_size_t, ctypes.c_void_p
SHORT_NUMBER = ctypes.c_uint16


def fields(kind, names):
    """Returns fields of one kind."""
    return [(it, kind) for it in names.split()]


class Report(ctypes.Structure):
    """VbReport."""

    _fields_ = [
        *fields(NUMBER, "ballooned target read_target held line outside"),
        *fields(LONG, "target_number deflates removed"),
    ]


class Seat(ctypes.Structure):
    """VbSeat."""

    _fields_ = [
        *fields(NUMBER, "pages ballooned least_target target wanted held line outside"),
        *fields(LONG, "target_number deflates granted removed turn"),
        *fields(NUMBER, "uncounted preferred deferred"),
    ]


class Host(ctypes.Structure):
    """VbHost."""

    _fields_ = fields(NUMBER, "frames overdraft")


class Event(ctypes.Structure):
    """VbHostEvent."""

    _fields_ = [
        ("kind", NUMBER),
        *fields(COUNT, "guest added"),
        *fields(NUMBER, "pages ballooned frames"),
        ("report", Report),
    ]


class Stand(ctypes.Structure):
    """VbStand."""

    _fields_ = fields(LONG, "first lent since head turn head_since")


class Look(ctypes.Structure):
    """VbLook."""

    _fields_ = [*fields(LONG, "time missing"), *fields(NUMBER, "patience awaits")]


class Relief(ctypes.Structure):
    """VbRelief."""

    _fields_ = [("kind", NUMBER), ("guest", COUNT)]


class Figures(ctypes.Structure):
    """VbFigures."""

    _fields_ = [
        *fields(NUMBER, "pages held ballooned ballooned_then available free lent asked"),
        *fields(NUMBER, "least most weight priority target"),
        *fields(SHORT_NUMBER, "contact strict uncounted paused pressed first"),
    ]


class PolicyBudget(ctypes.Structure):
    """VbPolicyBudget."""

    _fields_ = fields(NUMBER, "frames floor slack reserve band")


class PolicyRoom(ctypes.Structure):
    """VbPolicyRoom."""

    _fields_ = [("numbers", NUMBER * 7), ("flag", ctypes.c_uint8)]


class Decision(ctypes.Structure):
    """VbDecision."""

    _fields_ = [*fields(NUMBER, "code tier"), ("missing", LONG)]


class Counter(ctypes.Structure):
    """VbCounter."""

    _fields_ = fields(LONG, "value present")


# What a sample counts, as its fields have it.
COUNTED = ("swap_in", "swap_out", "oom_kills", "stalls", "direct_scan", "direct_reclaim")


class Sample(ctypes.Structure):
    """VbSample."""

    _fields_ = [*((it, Counter) for it in COUNTED), *fields(NUMBER, "ballooned target")]


class Pressure(ctypes.Structure):
    """VbPressure."""

    _fields_ = [("last", Sample), ("until", LONG)]


HOST, SEAT = ctypes.POINTER(Host), ctypes.POINTER(Seat)
POLICY_BUDGET = ctypes.POINTER(PolicyBudget)

# Each call: what it answers, and what it takes.
CALLS = {
    "vb_version": (NUMBER,),
    "vb_policy_decide": (Decision, POLICY_BUDGET, ROOM, COUNT, ROOM, COUNT, ROOM, COUNT),
    "vb_policy_press": (Pressure, ctypes.POINTER(Pressure), ctypes.POINTER(Sample), LONG),
    "vb_host_step": (NUMBER, HOST, ROOM, COUNT, ctypes.POINTER(Event)),
    "vb_host_owed": (LONG, ROOM, COUNT),
    "vb_host_room": (NUMBER, HOST, ROOM, COUNT),
    "vb_host_first": (COUNT, ROOM, COUNT),
    "vb_host_stand": (Stand, ROOM, COUNT, ctypes.POINTER(Stand), LONG),
    "vb_host_relief": (Relief, HOST, ROOM, COUNT, ctypes.POINTER(Stand), ctypes.POINTER(Look)),
    "vb_seat_lent": (LONG, SEAT),
    "vb_seat_asked": (NUMBER, SEAT),
}


def path_of(path=None):
    """Returns the file of the library: this one, or the first place that has one."""
    paths = [path] if path else [it for it in PLACES if os.path.exists(it)]
    if not paths:
        raise Usage(
            "the library isn't there: make -C monitor shared makes it, --library FILE names another"
        )
    return os.path.abspath(paths[0])


def load(path=None):
    """Returns the library of this file, or of the first place that has one."""
    path = path_of(path)
    try:
        library = ctypes.CDLL(path)
        for name, (answer, *taken) in CALLS.items():
            call = getattr(library, name)
            call.restype, call.argtypes = answer, taken
    except (OSError, AttributeError) as fault:
        raise Usage(f"{path} is no library of vb.h: {fault}") from None
    version = library.vb_version()
    if version >> 8 != VERSION >> 8:
        raise Usage(f"{path} has version {version:#08x}, and {VERSION:#08x} is wanted")
    return library


def decide(calls, budget, figures):
    """Returns the decision on these guests, and the target of each."""
    count = len(figures)
    rooms, targets = (PolicyRoom * count)(), (NUMBER * count)()
    answer = calls.vb_policy_decide(budget, figures, count, rooms, count, targets, count)
    return answer, targets
