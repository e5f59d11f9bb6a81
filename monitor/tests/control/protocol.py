"""The requests of the control protocol as a JSON Schema, packaging/control.schema.json, made of the
table of the sources: `protocol.py --write` writes it."""

import json
import os
import re
import sys

ROOT = os.path.join(os.path.dirname(os.path.realpath(__file__)), "..", "..", "..")
SOURCES = os.path.join(ROOT, "monitor", "backends", "control")
FILE = os.path.join(ROOT, "packaging", "control.schema.json")

PAGES = {"type": "integer", "minimum": 0, "maximum": ((1 << 32) - 2) * 4096, "multipleOf": 4096}
KINDS = {
    "FIELD_NAME": {"type": "string"},
    "FIELD_BYTES": PAGES,
    "FIELD_LIMIT": PAGES | {"type": ["integer", "null"]},
    "FIELD_BOOLEAN": {"type": "boolean"},
    "FIELD_KERNEL_LIMIT": {"type": ["string", "null"], "pattern": "^(cgroup|tmpfs):/"},
    "FIELD_USER": {"type": ["string", "integer", "null"], "minimum": 0, "maximum": (1 << 32) - 2},
    "FIELD_NUMBER": {"type": "integer"},
}
COMMON = {
    "version": {"const": 1},
    "id": {"type": ["string", "integer"]},
    "by": {"type": "string", "maxLength": 64},
}
NUMBERS = {"UINT32_MAX": (1 << 32) - 1, "INT64_MAX": (1 << 63) - 1}


def source(name):
    """Returns a source's text."""
    with open(os.path.join(SOURCES, name), encoding="utf-8") as file:
        return file.read()


def number(word):
    """Returns a number of the sources, by its digits or by its name."""
    named = re.search(rf"\b{word} = (\d+)", source("requests.c") + source("asked.h"))
    return NUMBERS[word] if word in NUMBERS else int(named[1] if named else word)


def field(kind, words):
    """Returns a field's schema."""
    bounds = {
        bound: number(found[1])
        for bound, its in (("minimum", "least"), ("maximum", "most"))
        if (found := re.search(rf"\.{its} = (\w+)", words))
    }
    least = {"minimum": 0} if kind == "FIELD_NUMBER" else {}
    return KINDS[kind] | least | bounds


def requests():
    """Returns the schema of each request, by its name."""
    text = source("requests.c").replace("\\\n", "")
    for name in ("LASTS", "NAMED", "TERMS"):
        text = re.sub(rf"\b{name}\b(?! \{{)", re.search(rf"#define {name} (.*)", text)[1], text)
    table = re.search(r"(?s)struct kind kinds\[\] = \{(.*?)\n\};", text)[1]
    schemas = {}
    for name, its in re.findall(
        r'(?s)\{"(\w+)", (?:SHOWS|CHANGES), \w+,(.*?)\}\},\n', table + "\n"
    ):
        found = re.findall(r'\{"(\w+)", (FIELD_\w+)([^{}]*)', its)
        schemas[name] = {
            "properties": {"request": {"const": name}, **COMMON}
            | {it: field(kind, words) for it, kind, words in found},
            "required": ["version", "request"]
            + [it for it, _, words in found if ".needed = true" in words],
            "additionalProperties": False,
        }
    return schemas


def schema():
    """Returns the text of the whole."""
    whole = {
        "$schema": "https://json-schema.org/draft/2020-12/schema",
        "title": "A request to the control socket of a host (docs/CONTROL.md)",
        "type": "object",
        "oneOf": list(requests().values()),
    }
    return json.dumps(whole, indent=1) + "\n"


if __name__ == "__main__" and sys.argv[1:] == ["--write"]:
    with open(FILE, "w", encoding="utf-8") as out:
        out.write(schema())
