"""Tests what a Debian package says of itself."""

import types

import release_debian

CHANGES = """# Changes

## 0.2.0

- **Lend memory**: it is lent.
- **A guest keeps its page cache while another
  one's target rises amid its deflate**: so it is.

## 0.1.0

- **Earlier**
"""

CHANGELOG = """bigvasta (0.2.0~1) unstable; urgency=medium

  * Lend memory.
  * A guest keeps its page cache while another one's target rises amid its
    deflate.

"""


def test_a_changelog_in_lines_as_debian_wants_them(monkeypatch):
    monkeypatch.setattr(release_debian, "read", {"CHANGELOG.md": CHANGES}.get)
    tree = types.SimpleNamespace(number="0.2.0", debian="0.2.0~1", date=0)
    said = release_debian.changelog(tree)
    assert said.startswith(CHANGELOG)
    assert said.splitlines()[-1].startswith(" -- ")
