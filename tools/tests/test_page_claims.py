"""Tests that tools/lib/page_claims.py refuses each kind of false claim: a page, or what it is
about, is changed in one place."""

import re

import pytest

import page_claims
import page_packages
import page_walks

# The check, a file, a pattern in it, what replaces it, and a part of what is said then.
CHANGES = (
    (
        "counts",
        "README.md",
        r"the shims \(\d+ lines of C",
        "the shims (1 lines of C",
        "'1' in place of",
    ),
    ("counts", "README.md", r"the shims \(", "the code (", "0 texts"),
    ("counts", "crates/vb_host/README.md", r": \d+ lines\. In", ": 1 lines. In", "'1' in place of"),
    (
        "counts",
        "docs/LINUX.md",
        r"`tools/test linux` \| \w+ runs",
        "`tools/test linux` | no runs",
        "'no' in place of",
    ),
    ("packages", "README.md", r"make gcc g\+\+ clang", "make gcc clang", "README.md: packages"),
    ("packages", "tools/release", r"binutils", "binutils zip", "tools/release: packages"),
    (
        "packages",
        "README.md",
        r"python3-pytest python3-pytest-timeout ",
        "python3-pytest ",
        "tools/lib/suites.py: packages",
    ),
    (
        "packages",
        "tools/lib/gate_steps.py",
        r"gcc g\+\+ clang",
        "gcc clang",
        "tools/lib/gate_steps.py: packages",
    ),
    (
        "wanted",
        "monitor/tests/control/test_watch.py",
        r"apt-get install tmux",
        "apt-get install screen",
        "control wants screen",
    ),
    ("times", "README.md", r"\| 20 seconds \|", "| 30 seconds |", "takes"),
    (
        "times",
        "monitor/README.md",
        r"## Tests\n",
        "## Tests\n\nThey take two minutes.\n",
        "a time belongs into",
    ),
    (
        "listings",
        "README.md",
        r"if \(result\.interrupts\)",
        "if (result.interrupt)",
        "README.md: a listing isn't in",
    ),
    (
        "listings",
        "docs/examples/noting/src/lib.rt.in",
        r"self\.broken\.saturating_add",
        "self.broken.wrapping_add",
        "docs/INTEGRATION.md: a listing isn't in",
    ),
    (
        "listings",
        "monitor/rust/examples/monitor.rs",
        r"balloon\.notify",
        "balloon.serve",
        "README.md: a listing isn't in",
    ),
    ("order", "docs/MAP.md", r"(?m)^\| `vb_ram` \|.*\n", "", "its crates aren't those"),
    ("order", "docs/MAP.md", r"(?m)^(\| `vb_ram` \|.*\n)", r"\1\1", "one is there twice"),
    (
        "order",
        "docs/MAP.md",
        r"(?ms)^(\| `vb_ram` \|[^\n]*\n)(.*?)(^\| `vb_chain` \|[^\n]*\n)",
        r"\3\2\1",
        "is listed before",
    ),
    (
        "named_files",
        "docs/MAP.md",
        r"`keeper\.rt`",
        "`keepers.rt`",
        "docs/MAP.md: no file crates/vb_frames/src/keepers.rt",
    ),
    (
        "named_files",
        "docs/MAP.md",
        r"`proofs/\*Step\.antt`",
        "`proofs/*Stop.antt`",
        "docs/MAP.md: no file crates/vb_guest/proofs/*Stop.antt",
    ),
    (
        "named_files",
        "CONTRIBUTING.md",
        r"`vb_model/src/calls\.rt`",
        "`vb_model/src/call.rt`",
        "CONTRIBUTING.md: no file crates/vb_model/src/call.rt",
    ),
    ("named_tools", "docs/MAP.md", r"`conform`, ", "", "its tools aren't those of tools: conform"),
    (
        "named_tools",
        "docs/MAP.md",
        r"`conform`, ",
        "`conform`, `conforms`, ",
        "its tools aren't those of tools: conforms",
    ),
    ("walks", "docs/MAP.md", r"`balloon/kicks\.c`", "`balloon/kick.c`", "no file monitor/backends"),
    ("walks", "docs/MAP.md", r"`lent_holds`", "`lent_hold`", "lent_channel.c has no function"),
    ("walks", "docs/MAP.md", r"`seat_add`", "`seat_remove`", "no row above seat_remove calls it"),
    ("walks", "docs/MAP.md", r"\d(?=\. `vb_c/serving)", "5", "of 10 at most"),
    ("walks", "docs/MAP.md", r"`decide`: has", "has", "isn't `FILE` `FUNCTION`"),
    (
        "walks",
        "monitor/backends/lender/reports.c",
        r"void adopt\(",
        "void adopts(",
        "reports.c has no function adopt",
    ),
    (
        "sanitized",
        "monitor/README.md",
        r"`order\.c`, `fences\.c`",
        "`fences.c`",
        "order.c isn't said correctly",
    ),
)

TRUE = page_claims.read


def changed(path, pattern, instead):
    """Returns a reader of files, of which one is changed in one place."""
    text, count = re.subn(pattern, instead, TRUE(path), count=1)
    assert count == 1 and text != TRUE(path), f"{path} has no {pattern}"
    return lambda asked: text if asked == path else TRUE(asked)


@pytest.mark.parametrize("look, path, pattern, instead, said", CHANGES)
def test_each_false_claim_is_refused(look, path, pattern, instead, said, monkeypatch):
    for it in (page_claims, page_packages, page_walks):
        monkeypatch.setattr(it, "read", changed(path, pattern, instead))
    assert any(said in line for line in getattr(page_claims, look)())


def test_the_pages_claim_nothing_false():
    assert page_claims.claims() == []
