"""The words with which a host begins a guest's process: by its own words, and by the guest's terms.
In the place of the process's program is one that writes its words down."""

import contextlib
import os

import pytest
from tenants import eventually
from vhost_client import Client

# What is said to the host, and of the guest; and what its process is told then, beside what it is
# told always.
WORDS = {
    "nothing else": ((), "", ()),
    "pages to be refused strictly": (("--strict-pages",), "", ("--strict",)),
    "events": (("--events",), "", ("--events",)),
    "strict guests": (("--strict",), "", ("--holds",)),
    "a strict guest": ((), "strict=1", ("--holds",)),
    "another guest of a strict host": (("--strict",), "strict=0", ()),
    "no sandbox": (("--no-sandbox",), "", ("--no-sandbox",)),
    "an end with the lender": (("--end-with-lender",), "", ("--end-with-lender",)),
    "a user": ((), "user=65534", ("--user", "65534")),
    "all": (
        ("--end-with-lender", "--no-sandbox", "--events", "--strict-pages"),
        "strict=1 user=0",
        ("--strict", "--events", "--holds", "--no-sandbox", "--end-with-lender", "--user", "0"),
    ),
}


def instead(folder):
    """Makes a program that writes its words down, and what it has as input and output; returns it,
    and what returns these."""
    program, words = folder / "instead", folder / "words"
    program.write_text(
        "#!/bin/sh\nfiles=$(readlink /proc/$$/fd/0 /proc/$$/fd/1)\n"
        f'printf "%s\\n" "$files" "$@" >{words}.new\nmv {words}.new {words}\n'
    )
    os.chmod(program, 0o755)
    return str(program), lambda: words.exists() and words.read_text().splitlines()


@pytest.mark.parametrize("said, terms, wanted", WORDS.values(), ids=WORDS)
def test_what_a_process_is_told(lend, tmp_path, said, terms, wanted):
    program, told = instead(tmp_path)
    lender = lend(5, "--features", "100000021", "--lines", "17", *said, "--program", program)
    lender.demand(f"add a {terms}".strip())
    with contextlib.suppress(OSError, AssertionError, TypeError):
        Client(f"{lender.folder}/a").leave()
    null, always = 2 * ["/dev/null"], ("--lent", "--features", "100000021", "--lines", "17")
    assert eventually(told, lender.said) == [*null, *always, *wanted, "--", "a"]
    lender.tells("a: its process has ended with status 0")


# How a process may end that says nothing, and what is said of it.
ENDS = {
    "exit 0": "with status 0",
    "exit 3": "with status 3",
    "exit 255": "with status 255",
    "kill -KILL $$": "by signal 9",
    "kill -TERM $$": "by signal 15",
    "kill -SYS $$": "by a system call that isn't allowed",
}


@pytest.mark.parametrize("end", ENDS)
def test_how_a_process_has_ended_that_says_nothing(lend, tmp_path, end):
    program = tmp_path / "instead"
    program.write_text(f"#!/bin/sh\n{end}\n")
    os.chmod(program, 0o755)
    lender = lend(5, "--program", str(program))
    with contextlib.suppress(OSError, AssertionError, TypeError):
        Client(lender.add("a")).leave()
    lender.tells(f"a: its process has ended {ENDS[end]}")
    # Its client was taken by none, and comes again.
    gone = lender.status()["host"]["measures"]["gone"]
    assert gone.pop("died") > 0 and set(gone.values()) == {0}
