"""The words of the field (docs/TERMS.md), for tools/check-sources: which words pages, comments and
commit subjects don't use."""

import ast
import io
import re
import subprocess
import tokenize

# A word that isn't used, with its exceptions, and what is used in its place.
WORDS = (
    (
        (
            r"behind\b(?! (?:an? |one |its |the "
            r")?(?:traits?|types?|box|references?|pointers?|locks?|flag)\b)"
        ),
        "after, at offset, or backs",
    ),
    (
        r"(?:stands?|stood)\b(?! (?:still|by|out|up)\b|-in|\()",
        "is, is at, represents, is available",
    ),
    (r"so many\b", "n, or the parameter's name"),
    (r"so much\b(?! (?:as|that|for|\w+er that)\b)", "n, or the parameter's name"),
    (r"anyhow\b", "on the slow path"),
    (r"as (?:it|they) (?:mostly|usually) (?:do|does|goes?)\b", "on the fast path"),
    (r"whoever\b", "the caller, the driver, the device, the front end"),
    (r"wants? of (?:memory|frames|a frame|files)\b", "allocation failure, lack of"),
    (r"by chance\b", "at random"),
    (r"(?:isn't|aren't) (?:always )?well\b", "malformed, hostile"),
    (r"ask(?:s|ed)? back\b", "requests back, deflates"),
    (r"used entr(?:y|ies)\b", "used element"),
    (r"(?:try|tries|tried) out\b", "test"),
    (r"owes? it\b", "must guarantee it"),
    (r"rightly\b", "correctly"),
    (r"as ever\b", "unchanged"),
    (r"(?:are|is) (?:its|theirs)[.,;]", "the noun: helper modules, members, parts"),
    (r"(?:plea|pleads?) for\b", "request for"),
    (r"(?:is|are) no matter\b", "doesn't matter"),
    (r"means? harm\b", "hostile"),
)
LISTED = tuple((re.compile(rf"\b{pattern}", re.IGNORECASE), instead) for pattern, instead in WORDS)

# What is read: prose of all kinds. The page of terms and this file's test name the words that
# aren't used.
READ = (
    "*.md",
    "*.rt",
    "*.antt",
    "*.[ch]",
    "*.rs",
    "*.py",
    "tools",
    "client",
    "monitor/bench",
    "monitor/rust/bind",
    "monitor/Makefile",
    ".ci/run",
)
OWNERS = ("docs/TERMS.md", "tools/lib/words.py", "tools/tests/test_words.py")
# Commits from this day on have to have right subjects.
SINCE = "2026-11-29T03:00:00Z"

# What is code in a text.
CODE = re.compile(r"`[^`]*`|\]\([^)]*\)|\"[^\"]*\"")
FIRST = re.compile(r"^\s*//[/!] The same\b")
MARKED = {"rt": r"(?://[/!]?|/\*)(.*)", "antt": r"--(.*)", "sh": r"(?:^|\s)#(.*)"}


def unused(text):
    """Returns the words of a text that aren't used, each with what is used in its place."""
    plain = CODE.sub(" ", text)
    return [f"'{hit[0]}': {instead}" for word, instead in LISTED for hit in word.finditer(plain)]


def page(text):
    """Returns the lines of a page with their numbers, without those of listings."""
    shown = re.sub(r"(?ms)^```.*?^```$", lambda it: "\n" * it[0].count("\n"), text)
    return [
        (number, line)
        for number, line in enumerate(shown.splitlines(), 1)
        if not line.startswith("    ")
    ]


def commented(text, kind):
    """Returns what the comments of a source say, by lines; in C and Rust a comment may have several
    lines."""
    found, inside = [], False
    for number, line in enumerate(text.splitlines(), 1):
        marked = re.search(MARKED[kind], line)
        if inside or marked:
            found.append((number, line if inside else marked[1]))
        if kind == "rt":
            inside = (inside or "/*" in line) and "*/" not in line.rpartition("/*")[2]
    return found


def described(text):
    """Returns the comments of a Python file, and what it and its classes and functions say of
    themselves."""
    tokens = tokenize.generate_tokens(io.StringIO(text).readline)
    found = [(it.start[0], it.string) for it in tokens if it.type == tokenize.COMMENT]
    for node in ast.walk(ast.parse(text)):
        if isinstance(node, (ast.Module, ast.ClassDef, ast.FunctionDef)) and ast.get_docstring(
            node
        ):
            string = node.body[0]
            found += [
                (string.lineno + at, line)
                for at, line in enumerate(string.value.value.splitlines())
            ]
    return sorted(found)


def lines_of(path, text):
    """Returns what a file says in prose, by lines: a page all, a source in its comments."""
    ending = path.rpartition(".")[2]
    if ending == "md":
        return page(text)
    if ending == "py" or re.match(r"#!/usr/bin/(?:env )?python3\n", text):
        return described(text)
    kind = {"antt": "antt", "rt": "rt", "rs": "rt", "c": "rt", "h": "rt"}.get(ending, "sh")
    return commented(text, kind)


def words_of(path, text):
    """Returns the words of a file that aren't used, with their lines. No doc comment begins with
    "The same": each is read alone."""
    found = [
        f"{path}:{number}: {it}" for number, line in lines_of(path, text) for it in unused(line)
    ]
    if path.endswith((".rt", ".rs")):
        lines = text.splitlines()
        begins = [
            at
            for at, line in enumerate(lines)
            if FIRST.match(line) and not (at and re.match(r"\s*//[/!]", lines[at - 1]))
        ]
        found += [f"{path}:{at + 1}: 'The same': what it is" for at in begins]
    return found


# A subject begins with a verb's plain form: not with these, nor with an ending of other forms.
NO_VERBS = re.compile(
    r"^(?:An?|The|Of|On|In|For|With|By|To|At|From|Some|More|New|All|Each|Every|What|Where|How|Who"
    r"|Which|No|And|Also)\b|^\w+(?:ing|ed|[^s]s)\b"
)
VERBS = re.compile(r"^(?:Bring|Embed|Feed|Need|Shed|Speed|Focus|Bypass|Cross|Pass)\b")


def subject_faults(subject):
    """Returns what is wrong with a commit's subject."""
    tests = (
        ("more than 72 columns", len(subject) > 72),
        (
            "begins with no verb in the imperative",
            NO_VERBS.match(subject) and not VERBS.match(subject),
        ),
        ("begins in lower case", subject[:1].islower()),
        (
            "has a path",
            re.search(r"\b[\w.-]+/[\w.-]+/|\b[\w-]+\.(?:rt|antt|py|c|h|rs|md)\b", subject),
        ),
        ("has a prefix with a colon", re.match(r"^[\w/-]+:", subject)),
        ("ends in a stop", subject.endswith(".")),
    )
    return [what for what, is_so in tests if is_so] + unused(subject)


def asked(root, *words):
    """Returns the lines that git says of a repository; none where there is none."""
    return subprocess.run(
        ["git", "-C", root, *words], stdout=subprocess.PIPE, stderr=subprocess.DEVNULL, text=True
    ).stdout.splitlines()


def subjects(root, since=SINCE):
    """Returns the commits since a time whose subjects are wrong; none where the history isn't
    there."""
    said = [
        line.partition(" ") for line in asked(root, "log", f"--since={since}", "--format=%h %s")
    ]
    return [
        f"{commit}: {fault}: {subject}"
        for commit, _, subject in said
        for fault in subject_faults(subject)
    ]


def words(root):
    """Returns the words of a repository's files that aren't used."""
    found = []
    for path in asked(root, "ls-files", "-co", "--exclude-standard", *READ):
        if path not in OWNERS:
            try:
                with open(f"{root}/{path}", encoding="utf-8") as file:
                    found += words_of(path, file.read())
            except FileNotFoundError:
                continue
    return found
