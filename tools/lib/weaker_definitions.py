"""Definitions that say less, one thing at a time: a field, a clause, or a part of one says
nothing."""

import re

from definition_files import DECLARES, Planted, at_top, definition_files, items, joined, read_lines

NOTHING = "Unit {0}"
SAY_NOTHING = (NOTHING, "⊤")

# How a type ends that is a statement's, and a field of a record.
IS_STATEMENT = re.compile(r"(?:→|:) Type 0$")
FIELD = re.compile(r"(\s+)(pub )?(\S+) : (.*)")

# A part that names something which the parts after it are about.
BINDER = re.compile(r"\([\w ]+ : ")

# What is in a statement, and in no type of plain data.
SIGNS = ("≡", "≢", "≤", "<", "→", "⊎", "×")


def parts(text):
    """Returns what is in front of a statement's parts, and the parts that it joins."""
    arrows = at_top(text, "→")
    begin = arrows[-1] + 1 if arrows else 0
    front, body = text[:begin].strip(), text[begin:]
    places = [-1, *at_top(body, "×"), len(body)]
    return front, [body[a + 1 : b].strip() for a, b in zip(places, places[1:])]


def weaker_texts(text):
    """Returns what a statement may be in place of this one, each with what of it says nothing."""
    front, all_parts = parts(text)
    texts = [("it says nothing", NOTHING)]
    if len(all_parts) > 1:
        for number, part in enumerate(all_parts):
            if BINDER.match(part):
                continue
            others = [NOTHING if k == number else it for k, it in enumerate(all_parts)]
            texts.append(
                (f"part {number + 1} says nothing", f"{front} {' × '.join(others)}".strip())
            )
    return texts


def is_statement(text, relations):
    """Returns whether the type of a field is a statement, and no type of data."""
    first = re.match(r"\w+", text)
    return any(it in text for it in SIGNS) or bool(first and " " in text and first[0] in relations)


def relations_of(paths):
    """Returns the names of all relations of these files."""
    found = set()
    for path in paths:
        lines = read_lines(path)
        for start, end in items(lines):
            name = DECLARES.match(lines[start])
            record = re.match(r"(?:pub )?record (\S+) \(", lines[start])
            if record:
                found.add(record[1])
            elif name and IS_STATEMENT.search(joined(lines[start:end])):
                found.add(name[2])
    return found


def weaker_fields(path, lines, start, end, relations):
    """Returns a record's weaker forms."""
    name = DECLARES.match(lines[start])[2]
    fields = [
        n
        for n in range(start + 1, end)
        if FIELD.fullmatch(lines[n]) and lines[n].lstrip().startswith("pub ")
    ]
    found = []
    for first, last in zip(fields, [*fields[1:], end]):
        margin, public, field, begin = FIELD.fullmatch(lines[first]).groups()
        said = [it for it in lines[first + 1 : last] if not it.strip().startswith("--")]
        text = joined([begin, *said])
        if is_statement(text, relations):
            for what, weaker in weaker_texts(text):
                new = [f"{margin}{public}{field} : {weaker}"]
                found.append(
                    Planted(
                        path,
                        name,
                        field,
                        f"{field}: {what}",
                        lines,
                        first,
                        "\n".join(lines[:first] + new + lines[last:]),
                    )
                )
    return found


def weaker_clause(path, lines, start, end):
    """Returns a clause's weaker forms."""
    whole = joined(it for it in lines[start:end] if not it.strip().startswith("--"))
    equals = at_top(whole, "=")
    if not equals:
        return []
    front, text = whole[: equals[0] + 1], whole[equals[0] + 1 :].strip()
    if text in SAY_NOTHING:
        return []
    return [
        Planted(
            path,
            front.split()[0],
            "",
            f"`{front[:-2].strip()}`: {what}",
            lines,
            start,
            "\n".join(lines[:start] + [f"{front} {new}"] + lines[end:]),
        )
        for what, new in weaker_texts(text)
    ]


def weaker_definitions(crate, all_paths):
    """Returns all weaker definitions of a crate."""
    relations, found = relations_of(all_paths), []
    for path in definition_files(crate):
        lines = read_lines(path)
        for start, end in items(lines):
            if re.match(r"(?:pub )?record ", lines[start]):
                found += weaker_fields(path, lines, start, end, relations)
            elif lines[start].split()[0] in relations and " = " in f"{joined(lines[start:end])} ":
                found += weaker_clause(path, lines, start, end)
    return found
