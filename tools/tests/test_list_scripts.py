"""Tests what tools/list-scripts says of pages whose rules lead to no scripts, and of what a script
shows."""

import pytest
from page_claims import read, tool

LISTED = tool("list-scripts")
PAGE = read("docs/RULES.md")
LINK = "[balances](../crates/vb_conformance/data/README.md#balances)"

# What is changed in the page, and what is said then.
CHANGES = (
    ("", "", []),
    (LINK, "", ["docs/RULES.md: no section leads to the scripts of balances"]),
    ("## Frames\n", "## Frames\n\n## Frames again\n", ["docs/RULES.md: no scripts of 'Frames'"]),
)

# How a script begins, and what is said of it.
BEGINS = (
    (
        "# Shows: Sweeps are refused in order.\n# And more.\nhost 1\n",
        "Sweeps are refused in order.",
    ),
    ("# Two guests share a host. A balance\n# follows.\n\nhost 1\n", "Two guests share a host."),
    ("# Two guests share\n# a host.\nhost 1\n", "Two guests share a host."),
)


@pytest.mark.parametrize("old, new, said", CHANGES)
def test_rules_lead_to_their_scripts(old, new, said):
    assert old in PAGE
    assert LISTED.unlinked(PAGE.replace(old, new, 1) if old else PAGE) == said


@pytest.mark.parametrize("text, said", BEGINS)
def test_a_script_says_what_it_shows(text, said):
    assert LISTED.shows(text) == said
