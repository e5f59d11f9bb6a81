"""Definitions that say something else, one word at a time: another number, bound, field or
constructor."""

import collections
import glob
import re

from definition_files import DECLARES, Planted, definition_files, items, read_lines

# A name, a number or a sign.
WORD = re.compile(r"[A-Za-z_]\w*|\d+|≤|<|\S")
OPPOSITES = {
    "≤": "<",
    "<": "≤",
    "true": "false",
    "false": "true",
    "take": "drop",
    "drop": "take",
    "nat_le": "nat_lt",
    "nat_lt": "nat_le",
}
OPPOSITES |= {"min": "max", "max": "min"}

# Structs and enums of sources, with a line for each field or variant; and the constructors of a
# `data`.
STRUCT = re.compile(r"pub struct \w+[^{;]*\{\n(.*?)\n\}", re.S)
PUBLIC = re.compile(r"pub (\w+): ([^\n]+),")
ENUM = re.compile(r"pub enum \w+[^{;]*\{\n(.*?)\n\}", re.S)
VARIANT = re.compile(r"^    (\w+)(\(.*\)|)(?:,| \{)", re.M)
DATA = re.compile(r"(?:pub )?data \w+[^\n]* where\n((?:  .*\n)+)")
CONSTRUCTOR = re.compile(r"^  (\w+) : (.*)$", re.M)
NUMBER = re.compile(r"u8|u16|u32|u64|usize")

# The most that are planted in one line.
MOST = 4


def texts(crate, pattern):
    """Returns the texts of a crate's files."""
    return ["\n".join(read_lines(it)) for it in glob.glob(f"{crate}/{pattern}", recursive=True)]


def alike(names):
    """Returns lists of the names that are of one type, of pairs of a name and its type."""
    found = collections.defaultdict(list)
    for name, kind in names:
        found[NUMBER.sub("number", kind)].append(name)
    return list(found.values())


def next_names(crates):
    """Returns, for each field, variant and constructor that has others of its type beside it, the
    next of them."""
    groups = []
    for crate in crates:
        for text in texts(crate, "src/**/*.rt"):
            groups += [
                [f".{name}" for name in names]
                for body in STRUCT.findall(text)
                for names in alike(PUBLIC.findall(body))
            ]
            groups += [
                names for body in ENUM.findall(text) for names in alike(VARIANT.findall(body))
            ]
        for text in texts(crate, "specs/**/*.antt"):
            groups += [
                names for body in DATA.findall(text) for names in alike(CONSTRUCTOR.findall(body))
            ]
    return {
        name: other
        for names in groups
        if len(names) > 1
        for name, other in zip(names, names[1:] + names[:1])
    }


def other_words(word, is_field, following):
    """Returns what may be in a word's place."""
    if word.isdigit():
        return [str(int(word) + 1)] + [str(int(word) - 1)] * (word != "0")
    other = following.get(f".{word}" if is_field else word, "").lstrip(".") or OPPOSITES.get(word)
    return [other] if other else []


def other_lines(line, begin, following):
    """Returns what a line may be from this place on, one word at a time."""
    found = []
    for word in WORD.finditer(line, begin):
        is_field = line[word.start() - 1 : word.start()] == "."
        found += [
            line[: word.start()] + it + line[word.end() :]
            for it in other_words(word[0], is_field, following)
        ]
    return found[:MOST]


def said_from(line, is_record, has_begun):
    """Returns the place from which on a line of an item says what a name represents; none: -1."""
    if line.strip().startswith("--"):
        return -1
    sign = " : " if is_record else " ="
    if has_begun and not is_record:
        return 0
    place = line.find(sign)
    return place + len(sign) if place >= 0 else 0 if is_record else -1


def others_of_item(path, lines, start, end, following):
    """Returns what else an item may say."""
    is_record = bool(re.match(r"(?:pub )?record ", lines[start]))
    if not is_record and re.match(r"(?:abbrev|unfoldable|rec|pub|data) ", lines[start]):
        return []
    name, found, has_begun = DECLARES.match(lines[start])[2], [], False
    first = (
        next((n + 1 for n in range(start, end) if lines[n].endswith(" where")), end)
        if is_record
        else start
    )
    for number in range(first, end):
        begin = said_from(lines[number], is_record, has_begun)
        has_begun |= begin >= 0
        for new in other_lines(lines[number], begin, following) if begin >= 0 else []:
            text = "\n".join([*lines[:number], new, *lines[number + 1 :]])
            found.append(Planted(path, name, "", f"`{new.strip()}`", lines, number, text))
    return found


def other_definitions(crate, crates):
    """Returns all definitions of a crate that say something else; names are in it and in the crates
    below it."""
    following, found = next_names(crates), []
    for path in definition_files(crate):
        lines = read_lines(path)
        for start, end in items(lines):
            found += others_of_item(path, lines, start, end, following)
    return found
