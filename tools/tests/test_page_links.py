"""Tests which links tools/lib/page_links.py takes for dead, and which sources for missing: each
page is one of a small repository."""

import subprocess

import pytest

import page_links

OTHER = "# A page\n\n## Who's there: `a_b`, twice\n\n```\n# no heading\n```\n"

# A line of a page beside docs/OTHER.md, and what is said of it.
LINES = (
    ("[it](docs/OTHER.md) and [folder](docs)", []),
    ("[it](docs/OTHER.md#whos-there-a_b-twice)", []),
    ("[it](#first)", []),
    ("[it](https://example.org/a#b)", []),
    ("`[it](docs/NONE.md)` is code", []),
    ("```\n[it](docs/NONE.md)\n```", []),
    ("```c\nint it;\n```", []),
    ("```c int it;\nint that;\n```", ["PAGE.md:3: the words of a fence aren't shown: int it;"]),
    ("[it](docs/NONE.md)", ["PAGE.md:3: no file docs/NONE.md"]),
    (
        "two [of](docs/NONE.md) [them](NONE.md#a)",
        ["PAGE.md:3: no file docs/NONE.md", "PAGE.md:3: no file NONE.md"],
    ),
    ("[it](docs/OTHER.md#no-heading)", ["PAGE.md:3: docs/OTHER.md has no heading #no-heading"]),
    ("[it](#second)", ["PAGE.md:3: PAGE.md has no heading #second"]),
)


@pytest.mark.parametrize("line, said", LINES)
def test_links(line, said, tmp_path, monkeypatch):
    (tmp_path / "docs").mkdir()
    (tmp_path / "docs/OTHER.md").write_text(OTHER)
    (tmp_path / "PAGE.md").write_text(f"# First\n\n{line}\n")
    subprocess.run(["git", "init", "-q", str(tmp_path)], check=True)
    monkeypatch.setattr(page_links, "ROOT", str(tmp_path))
    assert page_links.dead() == said


def test_a_link_goes_from_its_page(tmp_path, monkeypatch):
    (tmp_path / "docs").mkdir()
    (tmp_path / "docs/OTHER.md").write_text("[up](../PAGE.md) [down](PAGE.md)\n")
    (tmp_path / "PAGE.md").write_text("# First\n")
    subprocess.run(["git", "init", "-q", str(tmp_path)], check=True)
    monkeypatch.setattr(page_links, "ROOT", str(tmp_path))
    assert page_links.dead() == ["docs/OTHER.md:1: no file docs/PAGE.md"]


# A line of a page beside src/there.py, and the source of it that is missing.
NAMES = (
    ("`there.py`, `src/there.py`, `it/there.py`, `proofs/NAME.antt`, `none.md`, none.py", []),
    ("`here.py` and `there.py`", ["PAGE.md:1: no file is named here.py"]),
    ("`lib/there.py`", ["PAGE.md:1: no file is named lib/there.py"]),
    ("`re.py`", ["PAGE.md:1: no file is named re.py"]),
)


@pytest.mark.parametrize("line, said", NAMES)
def test_named_sources(line, said, tmp_path, monkeypatch):
    (tmp_path / "it/src").mkdir(parents=True)
    (tmp_path / "it/src/there.py").write_text("")
    for page in ("PAGE.md", "CHANGELOG.md"):
        (tmp_path / page).write_text(f"{line}\n")
    subprocess.run(["git", "init", "-q", str(tmp_path)], check=True)
    monkeypatch.setattr(page_links, "ROOT", str(tmp_path))
    assert page_links.missing() == said
