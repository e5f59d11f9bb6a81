"""Reads of which types the names in a clause's pattern are, and which constructors a type has."""

import dataclasses
import glob
import re

from definition_files import at_top, definition_files, read_lines
from other_definitions import DATA, ENUM

# A group of binders, the constructors of one line of a data, and a constructor's line that is
# broken.
BINDERS = re.compile(r"\(([\w' ]+) : ((?:[^()]|\([^()]*\))*)\)")
CONSTRUCTORS = re.compile(r"^  ([\w ]+) : (.*)$", re.M)
BROKEN = re.compile(r"\n {4,}")

# A variant with its fields, which have no types with brackets of their own.
COMMENT = re.compile(r"(?m)^ *///.*\n")
VARIANT = re.compile(r"(?m)^    (\w+)\s*(\([^)]*\)|\{[^}]*\}|),$")
FIELD = re.compile(r"\w+: [^,}]+|(?<=[(,])\s*[\w<>&]+(?=[,)])")
PRELUDE = "Rattle.std.specs.Prelude"


@dataclasses.dataclass
class Case:
    """A constructor: its name, its pattern, the types of its arguments, and the module that has
    it."""

    name: str
    pattern: str
    types: list
    home: str


# Of numbers and lists just the case that a fact about none of them doesn't meet.
STANDARD = {
    "Bool": [Case("true", "true", [], PRELUDE), Case("false", "false", [], PRELUDE)],
    "ℕ": [Case("suc", "(suc n)", ["ℕ"], PRELUDE)],
    "List": [Case("◌∷◌", "(x ∷ xs)", [], PRELUDE)],
    "Option": [Case("None", "None", [], PRELUDE), Case("Some", "(Some x)", [], PRELUDE)],
    "Result": [Case("Ok", "(Ok x)", [], PRELUDE), Case("Err", "(Err x)", [], PRELUDE)],
}


def split(text, sign):
    """Returns the parts of a text between signs that are outside all brackets."""
    places = at_top(text, sign)
    parts = [
        text[a:b].strip() for a, b in zip([0, *(it + 1 for it in places)], [*places, len(text)])
    ]
    return [it for it in parts if it]


def within(text):
    """Returns a text without the brackets round it."""
    return text[1:-1].strip() if text.startswith("(") else text


def binders(text):
    """Returns the name and the type of each value that is bound in a text; of one without a name
    `_`."""
    if BINDERS.match(text):
        return [(name, kind) for names, kind in BINDERS.findall(text) for name in names.split()]
    return [] if text.startswith("{") else [("_", text)]


def arguments(kind):
    """Returns the types of what a function's type takes."""
    return [it for part in split(kind, "→")[:-1] for _, it in binders(part)]


def module(path):
    """Returns the module of a file of definitions, or of a source."""
    crate, folder, rest = re.search(r"crates/(\w+)/(\w+)/(.*)\.", path).groups()
    return f"Rattle.{crate}.specs.{'declared.' * (folder == 'src')}{rest.replace('/', '.')}"


def data_cases(home, body):
    """Returns the constructors of a data."""
    found = []
    for names, kind in CONSTRUCTORS.findall(BROKEN.sub(" ", body)):
        types = arguments(kind)
        letters = "".join(f" a{number}" for number in range(len(types)))
        found += [
            Case(it, f"({it}{letters})" if types else it, types, home) for it in names.split()
        ]
    return found


def enum_cases(home, body):
    """Returns the variants of an enum."""
    found = []
    for name, fields in VARIANT.findall(COMMENT.sub("", body)):
        letters = "".join(f" a{number}" for number in range(len(FIELD.findall(fields))))
        found.append(Case(name, f"({name}{letters})" if letters else name, [], home))
    return found


def all_cases(crates):
    """Returns the constructors of each type, by its name."""
    found = dict(STANDARD)
    for crate in crates:
        for path in glob.glob(f"{crate}/src/**/*.rt", recursive=True):
            for it in ENUM.finditer("\n".join(read_lines(path))):
                name = re.match(r"pub enum (\w+)", it[0])[1]
                found[name] = enum_cases(f"{module(path)}.{name}.TheVariants", it[1])
        for path in definition_files(crate):
            for it in DATA.finditer("\n".join(read_lines(path))):
                found[re.search(r"data (\w+)", it[0])[1]] = data_cases(module(path), it[1])
    return found


def cases_of(kind, cases):
    """Returns the constructors of a type; none of a function's."""
    return [] if at_top(kind, "→") else cases.get(kind.split(" ")[0], [])


def typed_names(pattern, kind, cases):
    """Returns the names in a pattern of a type, each with its type."""
    parts = split(within(pattern), "∷")
    if len(parts) > 1:
        element = within(kind.partition(" ")[2])
        return [
            it for part in parts[:-1] for it in typed_names(part, element, cases)
        ] + typed_names(parts[-1], kind, cases)
    first, *words = split(within(pattern), " ") or [pattern]
    for case in cases_of(kind, cases):
        if case.name == first:
            return [
                it for word, of in zip(words, case.types) for it in typed_names(word, of, cases)
            ]
    return [(first, kind)] if not words and re.fullmatch(r"[a-z]\w*", first) else []
