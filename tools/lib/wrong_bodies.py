"""Wrong bodies of C and of Python: each is one edit of a text, on one line, by the kind of what is
wrong."""

import re
from typing import NamedTuple

# What is no code; then words, numbers and signs.
SKIPPED = {
    ".c": r"/\*.*?\*/|//[^\n]*|^[ \t]*\#(?:\\\n|[^\n])*|\"(?:\\.|[^\"\\])*\"|'(?:\\.|[^'\\])*'",
    ".py": (
        r"\#[^\n]*|[rbf]?\"\"\".*?\"\"\"|[rbf]?\"(?:\\.|[^\"\\\n])*\"|[rbf]?'(?:\\.|[^'\\\n])*'"
        r"|^@[^\n]*|^(?:from|import) [^\n]*"
    ),
}
SKIPPED[".h"] = SKIPPED[".c"]
TOKEN = (
    r"(?P<word>[A-Za-z_]\w*)|(?P<number>\d[\w.]*)"
    r"|(?P<sign>->|<<|>>|[-+*/|&<>=!]=|&&|\|\||\+\+|--|\*\*|//|[^\s\w])"
)

# What takes a token's place, by the kind of the edit; spaces round a word of Python's that is left
# out stay.
PLACES = {
    "comparison": {"<": "<=", "<=": "<", ">": ">=", ">=": ">", "==": "!=", "!=": "=="},
    "logic": {
        "&&": "||",
        "||": "&&",
        "and": "or",
        "or": "and",
        "!": "",
        "not": "",
        "true": "false",
        "false": "true",
        "True": "False",
        "False": "True",
    },
    "sign": {"+": "-", "-": "+", "+=": "-=", "-=": "+="},
}
KEYWORDS = {
    "if",
    "while",
    "for",
    "switch",
    "return",
    "sizeof",
    "case",
    "def",
    "in",
    "and",
    "or",
    "not",
    "else",
    "elif",
    "lambda",
    "class",
    "yield",
}

# Whole lines, by what takes their place: calls and assignments that stand by themselves, labels of
# cases, rows of tables.
C_LINES = {
    "call": (re.compile(r" +[a-z_]\w*\([^\n]*\);"), "(void)0;"),
    "assignment": (
        re.compile(r" +\*?[a-z_][\w.\[\]]*(?:->[\w.\[\]>-]+)* [-+|&]?= [^\n]*;"),
        "(void)0;",
    ),
    "case": (re.compile(r" +(?:case [A-Z]\w*:|\{[^\n]*\},)"), ""),
}
LINES = {
    ".c": C_LINES,
    ".h": C_LINES,
    ".py": {
        "call": (re.compile(r" +[a-z_][\w.]*\([^\n]*\)"), "pass"),
        "assignment": (re.compile(r" +[a-z_][\w.]* [-+|]?= [^\n]*[^\n\[({,]"), "pass"),
        "case": (re.compile(r" +\([^\n]*\),"), ""),
    },
}


class Edit(NamedTuple):
    """A wrong body: what of a file is replaced, and by what."""

    path: str
    kind: str
    begin: int
    end: int
    new: str

    def of(self, text):
        """Returns the text with the edit."""
        return text[: self.begin] + self.new + text[self.end :]

    def said(self, text):
        """Returns the edit in words: the file, the line, what was there and what is."""
        number, old = text.count("\n", 0, self.begin) + 1, text[self.begin : self.end].strip()
        return f"{self.path}:{number}: {self.kind}: {old} -> {self.new or 'nothing'}"


class Token(NamedTuple):
    """A token of code."""

    kind: str
    text: str
    begin: int
    end: int


def tokens_of(text, suffix):
    """Returns the tokens of code."""
    pattern = re.compile(f"(?P<skipped>{SKIPPED[suffix]})|{TOKEN}", re.S | re.M)
    return [
        Token(it.lastgroup, it[0], it.start(), it.end())
        for it in pattern.finditer(text)
        if it.lastgroup != "skipped"
    ]


def is_operand(token):
    """Whether what follows a token has something to its left."""
    return (
        token.kind == "number"
        or (token.kind == "word" and token.text not in KEYWORDS)
        or token.text in (")", "]")
    )


def other_number(text):
    """Returns another number; None where that is none of these."""
    found = re.fullmatch(r"(0x[0-9a-fA-F]+|0|[1-9]\d*)([uUlL]*)", text)
    return found and (hex if found[1].startswith("0x") else str)(int(found[1], 0) + 1) + found[2]


def small_edits(path, tokens):
    """Yields the edits of one token."""
    for before, token in zip([Token("sign", ";", 0, 0), *tokens], tokens):
        for kind, places in PLACES.items():
            # A sign without something to its left isn't one of two operands.
            if token.text in places and (kind != "sign" or is_operand(before)):
                yield Edit(path, kind, token.begin, token.end, places[token.text])
        if token.kind == "number" and other_number(token.text):
            yield Edit(path, "constant", token.begin, token.end, other_number(token.text))


def field_edits(path, tokens):
    """Yields exchanged fields: in the place of one that a name has, the next one that it has
    elsewhere."""
    four = zip(tokens, tokens[1:], tokens[2:], [*tokens[3:], Token("sign", ";", 0, 0)])
    triples = [
        it for it in four if it[0].kind == it[2].kind == "word" and it[1].text in ("->", ".")
    ]
    fields = {}
    for whose, _, field, after in triples:
        if after.text != "(":
            fields.setdefault(whose.text, {})[field.text] = None
    for whose, _, field, after in triples:
        its = [*fields.get(whose.text, ())]
        if after.text != "(" and len(its) > 1:
            yield Edit(
                path, "field", field.begin, field.end, its[(its.index(field.text) + 1) % len(its)]
            )


def arguments_of(tokens, number):
    """Returns the spans of the arguments of a call whose parenthesis is this token; none where they
    aren't all on its line."""
    depth, spans, begin = 0, [], tokens[number].end
    for token in tokens[number:]:
        depth += (token.text in "([{") - (token.text in ")]}")
        if depth == 0 or (depth == 1 and token.text == ","):
            spans.append((begin, token.begin))
            begin = token.end
        if depth == 0:
            return spans
    return []


def argument_edits(path, text, tokens):
    """Yields exchanged arguments: of two neighbours that differ, of calls."""
    for number in range(1, len(tokens)):
        if (
            tokens[number].text != "("
            or tokens[number - 1].kind != "word"
            or tokens[number - 1].text in KEYWORDS
        ):
            continue
        spans = arguments_of(tokens, number)
        for (begin, middle), (after, end) in zip(spans, spans[1:]):
            first, second = text[begin:middle].strip(), text[after:end].strip()
            # Parameters of a definition have types or values before them.
            is_call = not any(
                re.search(r"^(?:const |struct |enum )?\w+ \**\w+$|\n|^\*|[^=]=[^=]", it)
                for it in (first, second)
            )
            if first and second and first != second and is_call:
                yield Edit(path, "arguments", begin, end, f"{second}, {first}")


def line_edits(path, text, tokens, suffix):
    """Yields whole lines that are left out."""
    begins = {text.rfind("\n", 0, it.begin) + 1 for it in tokens}
    for begin in sorted(begins):
        end = text.find("\n", begin)
        line = text[begin:end]
        for kind, (pattern, new) in LINES[suffix].items():
            if pattern.fullmatch(line) and line.split("(")[0].strip() not in KEYWORDS:
                yield Edit(path, kind, begin + len(line) - len(line.lstrip()), end, new)


def edits_of(path, text):
    """Returns all edits of a file."""
    suffix = path[path.rindex(".") :]
    tokens = tokens_of(text, suffix)
    parts = (
        small_edits(path, tokens),
        field_edits(path, tokens),
        argument_edits(path, text, tokens),
        line_edits(path, text, tokens, suffix),
    )
    return [it for part in parts for it in part]


def drawn(edits, random):
    """Yields edits in a random order: of each kind about as many, while there are some."""
    left = {}
    for it in edits:
        left.setdefault(it.kind, []).append(it)
    while left:
        kind = random.choice(sorted(left))
        yield left[kind].pop(random.randrange(len(left[kind])))
        if not left[kind]:
            del left[kind]
