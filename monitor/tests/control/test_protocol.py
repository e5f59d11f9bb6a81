"""The JSON Schema of the control protocol: it is the sources' table, and a host refuses by name
each field that is wrong by it, that isn't known and that isn't there."""

import json
import os
import re

import pytest
from hosts import Raw
from protocol import FILE, requests, schema

SCHEMAS = requests()

# What may be wrong in some field.
VALUES = (
    None,
    True,
    -1,
    1,
    4095,
    1.5,
    4096.0,
    (1 << 32) - 1,
    1 << 32,
    1 << 44,
    (1 << 63) - 1,
    "",
    "x",
    "4096",
    "tmpfs:x",
    "x" * 65,
    [],
    [4096],
    {},
)
TYPES = {"string": str, "integer": int, "null": type(None), "boolean": bool}


def is_right(kind, value):
    """Whether a value is as a field's schema says."""
    if "const" in kind:
        return type(value) is type(kind["const"]) and value == kind["const"]
    types = kind["type"] if isinstance(kind["type"], list) else [kind["type"]]
    if not any(type(value) is TYPES[it] for it in types):
        return False
    if isinstance(value, str):
        is_short = len(value) <= kind.get("maxLength", 1 << 20)
        return is_short and bool(re.search(kind.get("pattern", ""), value))
    if isinstance(value, bool) or value is None:
        return True
    is_within = kind.get("minimum", value) <= value <= kind.get("maximum", value)
    return is_within and value % kind.get("multipleOf", 1) == 0


def right(kind):
    """Returns a value of a field."""
    if "const" in kind:
        return kind["const"]
    return next(it for it in (*VALUES, 4096, "cgroup:/x") if is_right(kind, it))


@pytest.fixture
def raw(host):
    it = Raw(host.control)
    yield it
    it.close()


def test_the_schema_is_that_of_the_sources():
    with open(FILE, encoding="utf-8") as file:
        assert file.read() == schema(), f"{FILE} is old: protocol.py --write"
    limits = [SCHEMAS[it]["properties"]["limit"]["maximum"] for it in ("log", "changes")]
    assert limits == [16, 16] and len(SCHEMAS) == 13


@pytest.mark.parametrize("name", SCHEMAS)
def test_each_field_that_is_wrong_is_refused_by_its_name(raw, name):
    kinds, needed = SCHEMAS[name]["properties"], SCHEMAS[name]["required"]
    good = {it: right(kinds[it]) for it in needed}
    asked = 0
    for field, kind in kinds.items():
        for value in (it for it in VALUES if not is_right(kind, it)):
            answer = raw.answer(json.dumps({**good, field: value}).encode())
            code = {"request": "unknown-request", "version": "version"}.get(field, "bad-field")
            codes = (code, "bad-field") if field == "request" else (code,)
            error = answer["error"]
            assert error["code"] in codes and error["field"] == field, (field, value, answer)
            asked += 1
    for field in needed:
        without = {it: value for it, value in good.items() if it != field}
        error = raw.answer(json.dumps(without).encode())["error"]
        assert (error["code"], error["field"]) == ("missing-field", field)
    error = raw.answer(json.dumps({**good, "more": 1}).encode())["error"]
    assert (error["code"], error["field"]) == ("unknown-field", "more")
    assert asked > 40


def test_the_host_takes_no_other_requests(host):
    """Each name that the schema has is a request's, and the page has a row for it."""
    with open(
        os.path.join(os.path.dirname(FILE), "..", "docs", "CONTROL.md"), encoding="utf-8"
    ) as it:
        rows = re.findall(r"(?m)^\| ((?:`\w+`(?:, )?)+) \|", it.read().split("## Refusals")[0])
    named = {it for row in rows for it in re.findall(r"`(\w+)`", row)}
    assert set(SCHEMAS) <= named, set(SCHEMAS) - named
