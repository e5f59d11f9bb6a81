"""Definitions that say more, one thing at a time: a clause or a record never holds, or not in one
case of what it is about."""

import re

from definition_files import DECLARES, Planted, at_top, definition_files, items, joined, read_lines
from definition_types import all_cases, arguments, binders, cases_of, module, split, typed_names
from law_premises import premises, without_comments
from weaker_definitions import FIELD, is_statement, relations_of

NEVER, NEVER_HOLDS = "⊥", "it never holds"

# What is put in front of a definition with a case that never holds, and what is said there.
HELPER = (
    "abbrev pub unless_planted : {kind} → Type 0 → Type 0\nunless_planted {pattern} said = "
    "⊥\nunless_planted it said = said\n"
)
SAID = "unless_planted {name} ({text})"


def in_scope(case, path, text):
    """Returns a constructor's pattern as a file may have it, and the import that it needs: by a
    name of its own, since the file may have another such name."""
    if case.home == module(path) or case.name in text and "◌" in case.name:
        return case.pattern, ""
    if "◌" in case.name:
        return case.pattern, f"use {case.home}.{{{case.name}}}\n"
    return (
        re.sub(rf"\b{case.name}\b", "Planted", case.pattern, count=1),
        f"use {case.home}.{{{case.name} as Planted}}\n",
    )


def stronger_texts(text, names, cases):
    """Returns what a statement may be in place of this one: what of it is stronger, the text, and
    the type with the case, if there is one."""
    found = [(NEVER_HOLDS, NEVER, None)]
    for name, kind in names:
        said = SAID.format(name=name, text=text)
        found += [
            (f"not where {name} is {it.pattern}", said, (kind, it)) for it in cases_of(kind, cases)
        ]
    return found


def stronger_forms(path, lines, place, front, text, names, cases):
    """Returns the stronger forms of a statement: front and text are on these lines of its file,
    which a helper is in front of."""
    name, begin, first, last = place
    found = []
    for what, said, of in stronger_texts(text, names, cases):
        new = lines[:first] + [f"{front} {said}"] + lines[last:]
        if of:
            kind, case = of
            pattern, imported = in_scope(case, path, "\n".join(lines))
            new[begin:begin] = HELPER.format(kind=kind, pattern=pattern).split("\n")
            new[0] = imported + new[0]
        found.append(
            Planted(path, name, "", f"`{front.strip(' =:')}`: {what}", lines, first, "\n".join(new))
        )
    return found


def stronger_clause(path, lines, item, signature, cases):
    """Returns a clause's stronger forms; its signature has the line where it begins, and the
    type."""
    whole = joined(without_comments(lines[slice(*item)]))
    front, text = (
        it.strip() for it in (whole[: at_top(whole, "=")[0]], whole[at_top(whole, "=")[0] + 1 :])
    )
    if text == NEVER:
        return []
    name, *patterns = split(front, " ")
    names = [
        it
        for pattern, kind in zip(patterns, arguments(signature[1]))
        for it in typed_names(pattern, kind, cases)
    ]
    return stronger_forms(
        path, lines, (name, signature[0], *item), f"{front} =", text, names, cases
    )


def stronger_record(path, lines, item, relations, cases):
    """Returns a record's stronger forms: its first field that is a statement is stronger."""
    start, end = item
    name, header = re.match(
        r"(?:pub )?record (\S+) (.*?) : Type", joined(lines[start:end])
    ).groups()
    fields = [n for n in range(start + 1, end) if FIELD.fullmatch(lines[n])]
    for first, last in zip(fields, [*fields[1:], end]):
        margin, public, field, begin = FIELD.fullmatch(lines[first]).groups()
        text = joined([begin, *without_comments(lines[first + 1 : last])])
        if is_statement(text, relations):
            return stronger_forms(
                path,
                lines,
                (name, start, first, last),
                f"{margin}{public or ''}{field} :",
                text,
                binders(header),
                cases,
            )
    return []


def stronger_definitions(crate, crates, all_crates):
    """Returns all stronger definitions of a crate's premises. The types and relations that it names
    are of these crates, and contracts of all crates have premises."""
    cases, wanted = all_cases(crates), premises(all_crates)
    relations, found = relations_of([it for other in crates for it in definition_files(other)]), []
    for path in definition_files(crate):
        lines, signatures = read_lines(path), {}
        for item in items(lines):
            first, whole = lines[item[0]], joined(without_comments(lines[slice(*item)]))
            record, declared = re.match(r"(?:pub )?record (\S+) ", first), DECLARES.match(first)[2]
            if record and record[1] in wanted:
                found += stronger_record(path, lines, item, relations, cases)
            elif not record and declared in wanted and at_top(whole, ":"):
                signatures[declared] = (item[0], whole[at_top(whole, ":")[0] + 1 :])
            elif first.split()[0] in signatures and at_top(whole, "="):
                found += stronger_clause(path, lines, item, signatures[first.split()[0]], cases)
    return found
