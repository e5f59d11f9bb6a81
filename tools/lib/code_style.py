"""How files are written, for tools/check-sources: by their formatters, in lines and files that are
short enough."""

import re
import shutil
import subprocess

import source_files
from source_files import files, is_test, places, read

COLUMNS, LINES = 100, 350
# Where the formatters' settings are; a test's files are elsewhere.
SETTINGS = source_files.ROOT

# Files that aren't parted by their topics yet: no other one may be longer.
LONGER = (
    "monitor/backends/lender/host.h",
    *(f"monitor/tests/control/{it}.py" for it in ("test_config", "test_made")),
    *(f"monitor/tests/host/{it}.py" for it in ("host_runs", "test_kept", "test_later_states")),
    *(f"monitor/tests/kit/{it}.py" for it in ("linux_guest", "linux_vmms", "vhost_client")),
    *(f"monitor/tests/{it}.c" for it in ("order", "refusals", "saved", "vhost_user_chance")),
    *(f"monitor/tests/test/{it}.c" for it in ("pauses", "portions")),
    "monitor/tests/host/test_strict.py",
)

# What bindgen makes.
BINDINGS = "monitor/rust/src/raw/bindings.rs"
C = ("crates/*/*.h", "monitor/**/*.[ch]")
PYTHON = re.compile(r"#!/usr/bin/(?:env )?python3\n")
PAGES = ("*.md", "crates/**/*.md", "docs/**/*.md", "monitor/**/*.md", "packaging/**/*.md")


def columns(crate):
    """Returns a crate's lines that are too long."""
    parts = files(f"crates/{crate}/src/**/*.rt", f"crates/{crate}/specs/**/*.antt")
    return too_long(parts)


def too_long(paths, part=lambda text: text):
    """Returns the lines of files, or of a part of their texts, that are too long."""
    return places(
        paths, lambda line: len(line) > COLUMNS, lambda line: f"{len(line)} columns", part
    )


def prose(text):
    """Returns a page with its listings and tables blank, each line where it was."""
    shown = re.sub(r"(?ms)^```.*?^```$", lambda it: "\n" * it[0].count("\n"), text)
    return re.sub(r"(?m)^(?:\||    |<|!\[).*$", "", shown)


def python_files():
    """Returns the files of Python: by their ending, or a program's first line."""
    found = files("client/**/*", "monitor/**/*", "tools/**/*")
    return [
        it
        for it in found
        if it.endswith(".py") or re.search(r"/[^.]+$", it) and PYTHON.match(read(it))
    ]


def lengths():
    """Returns the files of code that are too long."""
    proved = ("crates/*/src/**/*.rt", "crates/*/specs/**/*.antt", "crates/*/proofs/**/*.antt")
    code = files(*proved, "monitor/rust/*/**/*.rs", "tools/**/*")
    paths = [it for it in code if not is_test(it) and not it.endswith(".toml")]
    paths += files(*C) + python_files()
    counted = {it: len(read(it).splitlines()) for it in {*paths} - {*LONGER, BINDINGS}}
    return [f"{path}: {count} lines" for path, count in sorted(counted.items()) if count > LINES]


def long_lines():
    """Returns the lines of C, Python and pages that are too long."""
    return too_long(files(*C) + python_files()) + too_long(files(*PAGES), prose)


def said(program, words, paths, finding):
    """Returns what a program, which is its own package, finds in files; or that it isn't there."""
    if not shutil.which(program):
        return [f"{program} isn't there: apt-get install {program}"]
    ran = subprocess.run(
        [program, *words, *paths],
        cwd=source_files.ROOT,
        stdin=subprocess.DEVNULL,
        capture_output=True,
        text=True,
    )
    found = re.findall(finding, ran.stdout + ran.stderr)
    if ran.returncode and paths and not found:
        return [f"{program} failed: {(ran.stderr or ran.stdout).strip()}"]
    return sorted(set(found))


def formatting():
    """Returns what their formatters would write otherwise: lines of C, files of Python."""
    style, config = f"--style=file:{SETTINGS}/.clang-format", f"--config={SETTINGS}/pyproject.toml"
    line = r"(?m)^(\S+:\d+):\d+: .*clang-format"
    file = r"(?m)^(?:would reformat|error: cannot format) (.+)$"
    return [
        *said("clang-format", ("--dry-run", style), files(*C), line),
        *said("black", ("--check", config), python_files(), file),
    ]


def unused():
    """Returns what pyflakes finds in Python: names that nothing uses, or that nothing defines."""
    return said("pyflakes3", (), python_files(), r"(?m)^\S+:\d+:\d+:? .*$")
