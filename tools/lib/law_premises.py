"""Says which relations a contract supposes and no function's contract promises, by all crates'
sources and definitions."""

import collections
import glob
import re

from definition_files import at_top, definition_files, items, joined, read_lines
from weaker_definitions import relations_of

WORD = re.compile(r"[A-Za-z_]\w*")

# A function up to the next one, what it promises, and that it has no body: it is a law.
FUNCTION = re.compile(r"\bfn \w+.*?(?=\bfn \w+|\Z)", re.S)
PROMISE = re.compile(r"\bensures\b[^{}]*\{")
IS_LAW = re.compile(r"^\{\}$", re.M)

# Where a record's next field begins.
NEXT_FIELD = re.compile(r" (?=pub \S+ : )")


def without_comments(lines):
    """Returns lines but for those that are comments."""
    return [it for it in lines if not it.strip().startswith(("--", "//"))]


def inside(text, begin):
    """Returns what is in the bracket whose inside begins here."""
    depth = 1
    for place in range(begin, len(text)):
        depth += (text[place] in "([{") - (text[place] in ")]}")
        if depth == 0:
            return text[begin:place]
    return text[begin:]


def halves(text):
    """Returns what is left of a statement's last arrow, and what is right of it."""
    arrow = (at_top(text, "→") or [-1])[-1]
    return text[: arrow + 1], text[arrow + 1 :]


def statements(lines, is_record):
    """Returns what an item says: a record's fields, or what a clause's name represents."""
    whole = joined(without_comments(lines))
    if is_record:
        return [it.partition(" : ")[2] for it in NEXT_FIELD.split(whole)]
    return [whole[it + 1 :] for it in at_top(whole, "=")[:1]]


class Uses:
    """Which relations each relation supposes, and which it says of its arguments."""

    def __init__(self, paths):
        self.relations = relations_of(paths)
        self.supposed, self.said = collections.defaultdict(set), collections.defaultdict(set)
        for lines in map(read_lines, paths):
            for start, end in items(lines):
                record = re.match(r"(?:pub )?record (\S+) ", lines[start])
                for text in statements(lines[start + bool(record) : end], record):
                    self.add(record[1] if record else lines[start].split()[0], text)

    def add(self, name, text):
        """Adds what a relation, or a contract, says."""
        for to, half in zip((self.supposed, self.said), halves(text)):
            to[name] |= self.relations & set(WORD.findall(half))

    def reached(self, begin):
        """Returns these relations and all that they say."""
        todo, found = list(begin), set()
        while todo:
            name = todo.pop()
            todo += [] if name in found else self.said[name]
            found.add(name)
        return found


def premises(crates):
    """Returns the relations that a contract of these crates supposes, itself or by what it says,
    and no function's promises. What a function promises needs no fact, since its proof refuses a
    stronger definition."""
    uses = Uses([it for crate in crates for it in definition_files(crate)])
    for path in [
        it for crate in crates for it in glob.glob(f"{crate}/src/**/*.rt", recursive=True)
    ]:
        for function in FUNCTION.findall("\n".join(without_comments(read_lines(path)))):
            for promise in PROMISE.finditer(function):
                uses.add(
                    "a law" if IS_LAW.search(function) else "a function",
                    inside(function, promise.end()),
                )
    promised = uses.reached(uses.said["a function"])
    all_supposed = [uses.supposed[it] for it in ("a law", "a function", *promised)]
    return uses.reached(set().union(*all_supposed)) - promised
