"""Days as Prometheus hands them out: what is read of an answer to query_range, and each refusal, by
guest, series and moment."""

import json
import os
import re

import pytest
from bigvasta.commands.plan import EXAMPLE
from bigvasta.plan.days import Recorded, Use
from bigvasta.plan.lending import read_lending
from bigvasta.plan.metrics import CELLS, KNOWN
from bigvasta.plan.reading import COLUMNS, MEASURES, read
from bigvasta.statuses import Usage
from linux_kit import ROOT

METRICS = {
    "size": "bigvasta_guest_memory_bytes",
    "available": "bigvasta_guest_available_bytes",
    "free": "bigvasta_guest_free_bytes",
    "ballooned": "bigvasta_guest_ballooned_bytes",
}


def series(guest, cell, *values, **labels):
    """Returns a series, as an answer has it: of values from 100 on, 15 seconds apart, or of
    pairs."""
    pairs = [
        it if isinstance(it, list) else [100 + 15 * number, str(it)]
        for number, it in enumerate(values)
    ]
    return {
        "metric": {
            "__name__": METRICS.get(cell, cell),
            "guest": guest,
            "job": "bigvasta",
            **labels,
        },
        "values": pairs,
    }


def guest(name, rows, **labels):
    """Returns the series of a guest, of rows of size, available, free and ballooned
    memory."""
    return [series(name, cell, *column, **labels) for cell, column in zip(METRICS, zip(*rows))]


def answer(result, **other):
    """Returns the text of an answer."""
    return json.dumps(
        {"status": "success", "data": {"resultType": "matrix", "result": result}, **other}
    )


# Four pages, of which 1 is available and 1 ballooned; then 2, one of them free, and 1; then more
# than there is, as the two were looked at apart: a page is used. One is page cache.
ROWS = ((16384, 4096, 0, 4096), (16384, 8192, 4096, 4096), (16384, 12288, 0, 8192))
LATER = [
    series("b", "size", [115, "8192"], [130.0, "8192"]),
    series("b", "available", [115, "4095"], [130, "4095"]),
    series("b", "free", [115, "0"], [130, "0"]),
    series("b", "ballooned", [115, "0"], [130, "0"]),
]


def test_what_is_read(tmp_path, library):
    path = tmp_path / "day.json"
    path.write_text("\n " + answer(guest("a", ROWS) + LATER))
    assert read(library, str(path)).guests == (
        Recorded("a", 4, (Use(100.0, 2, 1), Use(115.0, 1, 1)), 130.0),
        Recorded("b", 2, (Use(115.0, 2, 0),), 130.0),
    )


def test_a_guest_whose_allocations_stall_is_pressed(tmp_path, library):
    path = tmp_path / "day.json"
    stalls = series("a", "bigvasta_guest_alloc_stalls_total", 7, 8, 8)
    target = series("a", "bigvasta_guest_target_bytes", 4096, 4096, 4096)
    path.write_text(answer(guest("a", ROWS[:1] * 3) + [stalls, target]))
    assert read(library, str(path)).guests[0].uses == (
        Use(100.0, 2, 1),
        Use(115.0, 2, 1, True),
        Use(120.0, 2, 1),
    )


def test_guests_of_several_hosts(tmp_path, library):
    path = tmp_path / "day.json"
    path.write_text(
        answer(guest("a", ROWS, instance="one:9750") + guest("a", ROWS, instance="two:9750"))
    )
    assert [it.name for it in read(library, str(path)).guests] == ["one:9750/a", "two:9750/a"]


GOOD = guest("a", ROWS)


def replaced(cell, *values):
    """Returns the series of a guest, one of which has other values."""
    return [
        series("a", cell, *values) if it["metric"]["__name__"] == METRICS[cell] else it
        for it in GOOD
    ]


# What a file has, and what it is refused by.
REFUSED = (
    (
        "{",
        (
            ": this is no JSON: Expecting property name enclosed in double quotes: line 1 column "
            "2 (char 1)"
        ),
    ),
    ("{}", ": this is no answer of success: it has no status"),
    ('{"status": "error", "error": "bad query"}', ": this is no answer of success: bad query"),
    ('{"status": "success"}', ": the result is None, and no matrix, which query_range answers"),
    (
        '{"status": "success", "data": {"resultType": "vector", "result": []}}',
        ": the result is 'vector', and no matrix, which query_range answers",
    ),
    (
        '{"status": "success", "data": {"resultType": "matrix"}}',
        ": the result is 'matrix', and no matrix, which query_range answers",
    ),
    (answer([]), ": there are no rows"),
    (answer([3]), ": series 1 has no labels, or no values"),
    (answer([{"metric": {}, "values": []}]), ": series 1 has no labels, or no values"),
    (
        answer([*GOOD, series("a", "bigvasta_guest_spare_bytes", 1)]),
        ": series 5: the metric 'bigvasta_guest_spare_bytes' is none of "
        "bigvasta_guest_memory_bytes, bigvasta_guest_available_bytes, bigvasta_guest_free_bytes, "
        "bigvasta_guest_ballooned_bytes, bigvasta_guest_target_bytes, "
        "bigvasta_guest_swap_in_bytes_total, bigvasta_guest_swap_out_bytes_total, "
        "bigvasta_guest_oom_kills_total, bigvasta_guest_alloc_stalls_total, "
        "bigvasta_guest_direct_scans_bytes_total, bigvasta_guest_direct_reclaims_bytes_total, "
        "bigvasta_guest_loan_bytes, "
        "bigvasta_guest_asked_bytes, bigvasta_guest_granted_bytes_total, "
        "bigvasta_guest_waiting_seconds, bigvasta_budget_bytes",
    ),
    (answer([series(None, "size", 1)]), ": series 1 has no label guest"),
    (
        answer([{"metric": {"__name__": ["x"]}, "values": [[1, "1"]]}]),
        f": series 1: the metric ['x'] is none of {', '.join(KNOWN)}",
    ),
    (
        answer(replaced("size", 1, [115, 4096])),
        ": bigvasta_guest_memory_bytes of a: [115, 4096] is no pair of a time and a value",
    ),
    (
        answer(replaced("size", 1, [115])),
        ": bigvasta_guest_memory_bytes of a: [115] is no pair of a time and a value",
    ),
    (
        answer(replaced("size", 1, [float("nan"), "1"])),
        ': bigvasta_guest_memory_bytes of a: [NaN, "1"] is no pair of a time and a value',
    ),
    (
        answer(replaced("size", 1, [10**400, "1"])),
        f': bigvasta_guest_memory_bytes of a: [1{"0" * 400}, "1"] is no pair of a time and a value',
    ),
    (
        answer(replaced("available", 1, [99, "1"])),
        ": bigvasta_guest_available_bytes of a: 99 isn't after 100, the time before",
    ),
    (
        answer(replaced("available", 1, [100, "1"])),
        ": bigvasta_guest_available_bytes of a: 100 isn't after 100, the time before",
    ),
    (answer(GOOD + GOOD[:1]), ": a has size twice"),
    (answer(GOOD[:3]), ": a has no series bigvasta_guest_ballooned_bytes"),
    (answer(GOOD[:2] + GOOD[3:]), ": a has no series bigvasta_guest_free_bytes"),
    (
        answer([*GOOD, series("a", "bigvasta_guest_oom_kills_total", 1, 1, 1)]),
        ": a has no series bigvasta_guest_target_bytes",
    ),
    (answer(replaced("available", [100, "1"], [130, "1"])), ": a at 115: available has a hole"),
    (
        answer(
            guest("a", ROWS)
            + guest("b", ROWS[:1] * 4)
            + [series("c", it, [100, "4096"], [130, "4096"]) for it in METRICS]
        ),
        ": c at 130: there is a hole of 30 s before it, where values are 15 s apart",
    ),
    (answer(replaced("size", 16384, 0, 16384)), ": a at 115: size is 0"),
    (
        answer(replaced("size", 16384, 16385, 16384)),
        ": a at 115: size: 16385 isn't whole pages of 4096 bytes, below 2^32 of them",
    ),
    (
        answer(replaced("size", 16384, 20480, 16384)),
        ": a at 115: size: a had 16384 bytes before, and 20480 now",
    ),
    (
        answer(replaced("size", 16384, "NaN", 16384)),
        ": a at 115: size: 'NaN' is no number of bytes",
    ),
    (
        answer(replaced("available", 1, "NaN", 1)),
        ": a at 115: available: 'NaN' is no number of bytes",
    ),
    (
        answer(replaced("available", 1, "+Inf", 1)),
        ": a at 115: available: '+Inf' is no number of bytes",
    ),
    (
        answer(replaced("available", 1, 16385, 1)),
        ": a at 115: available is 16385, above size, which is 16384",
    ),
    (
        answer(replaced("ballooned", 0, 0, 16385)),
        ": a at 130: ballooned is 16385, above size, which is 16384",
    ),
    (answer(replaced("ballooned", 0, "", 0)), ": a at 115: ballooned is empty"),
    (
        answer([series("a", it, [-15, "4096"], [0, "4096"]) for it in METRICS]),
        ": a at -15: seconds: '-15.0' is no time in seconds from 0 on",
    ),
    (
        answer(guest("a", ROWS[:1])),
        ": a at 100: a has this row alone: a guest's last row says when it goes",
    ),
)


@pytest.mark.parametrize(("text", "words"), REFUSED)
def test_refusals(tmp_path, library, text, words):
    path = tmp_path / "day.json"
    path.write_text(text)
    with pytest.raises(Usage) as refused:
        read(library, str(path))
    assert str(refused.value) == f"{path}{words}"


@pytest.mark.parametrize("text", ("[1]", "3", "null", '"x"'))
def test_json_that_is_no_object(tmp_path, text):
    path = tmp_path / "day.json"
    path.write_text(text)
    with pytest.raises(Usage) as refused:
        read_lending(str(path))
    assert str(refused.value) == f"{path}: this is no answer of success: it has no status"


def test_the_pages_name_what_a_recording_has_to_have():
    with open(os.path.join(ROOT, "docs", "man", "bigvasta.1"), encoding="utf-8") as file:
        page = file.read().partition('plan " \\fIFILE')[2].partition(".TP")[0]
    for said in (page, EXAMPLE):
        columns = re.search(r"guest, seconds,[^;(]*", said)[0]
        assert set(re.findall(r"\w+", columns)) >= {*COLUMNS, *MEASURES}, columns
        assert set(re.findall(r"\w+", said)) >= CELLS.keys()
