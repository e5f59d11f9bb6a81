"""What pages claim of commands, lists and counts, for tools/check-sources: each is compared with
what it is about."""

import ast
import glob
import importlib.machinery
import importlib.util
import os
import re
import sys

from page_packages import packages, wanted
from page_walks import walks
from source_files import ROOT, read

WORDS = (
    "no one two three four five six seven eight nine ten eleven twelve thirteen fourteen fifteen "
    "sixteen seventeen eighteen nineteen twenty"
).split()


def tool(name):
    """Returns a tool as a module; those beside it are its modules."""
    sys.dont_write_bytecode = True
    if f"{ROOT}/tools" not in sys.path:
        sys.path.append(f"{ROOT}/tools")
    loader = importlib.machinery.SourceFileLoader(name.replace("-", "_"), f"{ROOT}/tools/{name}")
    module = importlib.util.module_from_spec(importlib.util.spec_from_loader(loader.name, loader))
    loader.exec_module(module)
    return module


def number(text):
    """Returns what a number of a page says: digits, or a word."""
    plain = text.replace(",", "").lower()
    return int(plain) if plain.isdigit() else WORDS.index(plain) if plain in WORDS else None


def entries(path, name):
    """Returns how many entries a table of this name has, which a file of Python writes out."""

    def count():
        tree = ast.parse(read(path))
        tables = [
            it.value
            for it in tree.body
            if isinstance(it, ast.Assign)
            and any(isinstance(to, ast.Name) and to.id == name for to in it.targets)
        ]
        return len(tables[0].keys if isinstance(tables[0], ast.Dict) else tables[0].elts)

    return count


def lines_of(*paths):
    """Returns how many lines files have."""
    return lambda: sum(len(read(it).splitlines()) for it in paths)


def scripts(*folders):
    """Returns how many scripts these folders have."""
    return lambda: sum(len(glob.glob(f"{ROOT}/{it}/*.script")) for it in folders)


def wrong_shims(*paths):
    """Returns how many edits tools/wrong-shims plants into these files of monitor."""
    return lambda: sum(it.file.startswith(paths) for it in tool("wrong-shims").WRONG)


def headline(path):
    """Returns how many lines a page's headline rests on."""

    def count():
        it = tool("headline")
        return sum(it.reached_by(it.PAGES[path], False, False)[-1].values())

    return count


SHIM, CALLS, OBEY = (
    ("monitor/include/balloon.h", "monitor/include/balloon_discards.h"),
    ("monitor/include/balloon_calls.h", "monitor/include/balloon_notices.h"),
    ("monitor/rust/src/obey.rs", "monitor/rust/src/discards.rs"),
)

# A page, the pattern of a number in it, and what the number has to be.
COUNTS = (
    (
        "crates/vb_host/README.md",
        r"first\s+headline\S+:\s+(\w+) lines",
        headline("crates/vb_host/README.md"),
    ),
    ("README.md", r"the shims \((\w+) lines of C", lines_of(*SHIM)),
    ("README.md", r"lines of C, (\w+) of Rust\)", lines_of(*OBEY)),
    ("CHANGELOG.md", r"shims in C and Rust obey it:\s+(\w+) and \w+ lines", lines_of(*SHIM)),
    ("CHANGELOG.md", r"shims in C and Rust obey it:\s+\w+ and (\w+) lines", lines_of(*OBEY)),
    (
        "CHANGELOG.md",
        r"\(`tools/conform`\):\s+(\w+), by topic",
        scripts("crates/vb_conformance/data/*"),
    ),
    ("monitor/README.md", r"`balloon_discards\.h` \((\w+) lines\)", lines_of(*SHIM)),
    ("monitor/README.md", r"`balloon_notices\.h`, (\w+) lines", lines_of(*CALLS)),
    ("monitor/README.md", r"by (\w+) wrong shims in C", wrong_shims("include/")),
    ("monitor/README.md", r"wrong shims in C and (\w+) in Rust", wrong_shims("rust/")),
    ("monitor/rust/README.md", r"`src/discards\.rs`\s+\((\w+)\s+lines\)", lines_of(*OBEY)),
    (
        "docs/LINUX.md",
        r"`tools/test linux` \| (\w+) runs",
        entries("monitor/tests/linux/linux_runs.py", "RUNS"),
    ),
    (
        "docs/LINUX.md",
        r"`tools/test linux --wrong all` \| (\w+) devices",
        entries("monitor/tests/linux/linux_bench.py", "WRONG_DEVICES"),
    ),
    (
        "docs/LINUX.md",
        r"`tools/test host-runs` \| (\w+) runs",
        entries("monitor/tests/host/host_runs.py", "RUNS"),
    ),
    (
        "docs/LINUX.md",
        r"`tools/test host-runs --wrong all` \| (\w+) hosts",
        entries("monitor/tests/host/host_runs.py", "WRONG_HOSTS"),
    ),
    (
        "docs/LINUX.md",
        r"`tools/test vhost-user --wrong all` \| (\w+) backends",
        entries("monitor/tests/vhost_user/test_mutants.py", "WRONG"),
    ),
)


def counts():
    """Returns the numbers of pages that aren't what they count, and the patterns that a page hasn't
    just once."""
    found = []
    for path, pattern, count in COUNTS:
        said = re.findall(pattern, read(path))
        if len(said) != 1:
            found.append(f"{path}: {len(said)} texts {pattern}")
        elif number(said[0]) != count():
            found.append(f"{path}: '{said[0]}' in place of {count()}: {pattern}")
    return found


TABLES = ("README.md", "docs/LINUX.md")
DURATION = r"\b(?:minutes?|hours?)\b"


def times():
    """Returns commands whose tables have several times, and pages and tools that state one beside
    the tables."""
    stated, found = {}, []
    for path in TABLES:
        for command, time in re.findall(
            r"(?m)^\| `([^`]+)` \|.*\| ([^|]*\b(?:seconds|minutes?|hour)\b[^|]*) \|$", read(path)
        ):
            if stated.setdefault(command, time) != time:
                found.append(
                    f"{path}: `{command}` takes {time} here, and {stated[command]} elsewhere"
                )
    named = {it.split()[0] for it in stated if it.startswith("tools/")} | {"tools/wrong-shims"}
    texts = {it: ast.get_docstring(ast.parse(read(it))) for it in sorted(named)}
    texts |= {it: read(it) for it in ("monitor/README.md", "monitor/rust/README.md")}
    for path, text in texts.items():
        found += [
            f"{path}: a time belongs into {' and '.join(TABLES)} alone: {it.strip()}"
            for it in text.splitlines()
            if re.search(DURATION, it)
        ]
    return found


# A page, the language of its listings, and the files of which they have parts, which `...` divides.
LISTINGS = (
    ("README.md", "c", ("monitor/examples/example.c",)),
    ("README.md", "rust", ("monitor/rust/examples/monitor.rs",)),
    (
        "docs/INTEGRATION.md",
        "rust",
        tuple(f"docs/examples/{it}/src/lib.rt.in" for it in ("serve", "noting", "hosting")),
    ),
)


def listings():
    """Returns the pages whose listing of a file isn't what the file has."""
    found = []
    for path, language, sources in LISTINGS:
        parts = [
            part
            for it in re.findall(rf"(?s)\n```{language}\n(.*?)```\n", read(path))
            for part in it.split("...\n")
        ]
        texts = [read(it) for it in sources]
        if not parts or any(all(it not in text for text in texts) for it in parts):
            found.append(f"{path}: a listing isn't in {' or '.join(sources)}")
    return found


def order():
    """Returns what is wrong with the map's table of crates, low to high: each is there once, after
    those that it needs."""
    section = read("docs/MAP.md").partition("\n## The crates\n")[2].partition("\n## ")[0]
    named = re.findall(r"(?m)^\| `(vb_\w+)` \|", section)
    below = {
        name: set(rest.split())
        for name, rest in re.findall(r"(?m)^(\w+)[^:#\n]*:(.*)$", read("crates.txt"))
    }
    if sorted(named) != sorted(below):
        return [
            (
                "docs/MAP.md: its crates aren't those of crates.txt: "
                f"{', '.join(sorted(set(named) ^ set(below))) or 'one is there twice'}"
            )
        ]
    late = [(it, low) for at, it in enumerate(named) for low in below[it] & set(named[at:])]
    return [f"docs/MAP.md: crate {it} is listed before {low}, which it needs" for it, low in late]


def folder_of(path):
    """Returns the folder of a crate in which a file is that the map names without one."""
    if path.startswith(("proofs/", "data/")):
        return ""
    return "specs/" if path.endswith(".antt") else "src/"


def named_files():
    """Returns the files that the map's table of crates names, or CONTRIBUTING by its crate, and
    that aren't there."""
    section = read("docs/MAP.md").partition("\n## The crates\n")[2].partition("\n## ")[0]
    named = [
        ("docs/MAP.md", crate, it)
        for crate, last in re.findall(r"(?m)^\| `(vb_\w+)` \|.*\|([^|]*)\|$", section)
        for it in re.findall(r"`([^`]+)`", last)
    ]
    named = [(page, f"{crate}/{folder_of(it)}{it}") for page, crate, it in named]
    named += [
        ("CONTRIBUTING.md", it) for it in re.findall(r"`(vb_\w+/[\w./]+)`", read("CONTRIBUTING.md"))
    ]
    return [
        f"{page}: no file crates/{it}" for page, it in named if not glob.glob(f"{ROOT}/crates/{it}")
    ]


def named_tools():
    """Returns the tools that the map doesn't name, and those that it names and that aren't
    there."""
    section = read("docs/MAP.md").partition("\n## The tools\n")[2]
    named = {
        it.split()[0]
        for it in re.findall(r"`([a-z][\w-]*(?: [A-Z]+)?)`", section.partition("|---|---|")[2])
        if "/" not in it
    } - {"debian", "packaging"}
    there = {it for it in os.listdir(f"{ROOT}/tools") if os.path.isfile(f"{ROOT}/tools/{it}")}
    return [f"docs/MAP.md: its tools aren't those of tools: {it}" for it in sorted(named ^ there)]


def sanitized():
    """Returns where monitor/README.md names other tests as those without the address sanitizer than
    the Makefile has."""
    page, makefile = read("monitor/README.md"), read("monitor/Makefile")
    tests = set(re.findall(r"(?m)^\| `(\w+)\.c` \|", page))
    run = {
        it
        for names in re.findall(r"(?m)^(?:C_TESTS \+?=|EXPLAINED =) (.*)$", makefile)
        for it in names.split()
    }
    alone = re.compile(r"run without the address\s+sanitizer alone")
    said = next((it for it in page.split("\n\n") if alone.search(it)), "")
    named = set(re.findall(r"`(\w+)\.c`", said))
    return [
        f"monitor/README.md: of tests without the sanitizer, {it}.c isn't said correctly"
        for it in sorted(named ^ (tests - run))
    ]


def claims():
    """Returns all that pages claim falsely."""
    return [
        *counts(),
        *packages(),
        *wanted(),
        *times(),
        *listings(),
        *order(),
        *named_files(),
        *named_tools(),
        *walks(),
        *sanitized(),
    ]
