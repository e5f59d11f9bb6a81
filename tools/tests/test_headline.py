"""What tools/headline counts, in a small tree, worked out by hand; and that a page with another
table is refused."""

import pytest
from page_claims import tool

TREE = {
    "crates.txt": "low:\nhigh: low\n",
    "crates/low/specs/Lib.antt": "pub mod Even\n",
    "crates/low/specs/Even.antt": """use Rattle.std.specs.Nat.{ℕ}
use Rattle.low.specs.declared.limits.{MOST}

-- What no definition below names.
pub Odd : ℕ → Type 0
Odd n = Even (suc n)

-- A number that is twice another one.
pub Even : ℕ → Type 0
Even n = IsTwice n × n ≤ MOST

IsTwice : ℕ → Type 0
IsTwice n = Σ ℕ λ m → n ≡ m + m
""",
    "crates/low/src/limits.rt": "/// The most.\npub const MOST: u32 = 256;\n",
    "crates/high/src/first.rt": """ghost use Rattle.low.specs.Even.{Even};

pub fn run(n: u32) -> u32
    ensures even { Even result }
{
    0
}
""",
    "crates/high/src/second.rt": """ghost use Rattle.low.specs.Even.{Odd};

pub fn run_threads(n: u32) -> u32
    ensures odd { Odd result }
{
    1
}
""",
    "crates/high/src/laws.rt": """ghost use Rattle.low.specs.Even.{Odd, Even};

pub fn all_are_even()
    ensures { (n : ℕ) → Even n }
{}

pub fn none_is_odd()
    ensures { (n : ℕ) → Odd n }
{}
""",
    "laws.md": "<!-- tools/headline: from here -->\n<!-- tools/headline: to here -->\n",
    "page.md": "<!-- tools/headline: from here -->\n<!-- tools/headline: to here -->\n",
}

# Even and IsTwice have 4 lines, MOST has one; Odd 2 more.
TABLE = """| File | `World::run` | and `run_threads` |
|---|---|---|
| `low/src/limits.rt` | 1 | 1 |
| `low/specs/Even.antt` | 4 | 6 |
| 2 files | 5 | 7 |"""
LAWS = """| File | `all_are_even` |
|---|---|
| `low/src/limits.rt` | 1 |
| `low/specs/Even.antt` | 4 |
| 2 files | 5 |"""


@pytest.fixture
def headline(tmp_path, monkeypatch):
    """The tool over a small tree."""
    its = tool("headline")
    for path, text in TREE.items():
        (tmp_path / path).parent.mkdir(parents=True, exist_ok=True)
        (tmp_path / path).write_text(text, encoding="utf-8")
    monkeypatch.setattr(its, "ROOT", str(tmp_path))
    monkeypatch.setattr(
        its,
        "PAGES",
        {
            "page.md": [
                ("World::run", "high/src/first.rt", "pub fn run("),
                ("run_threads", "high/src/second.rt", "pub fn run_threads"),
            ],
            "laws.md": [("all_are_even", "high/src/laws.rt", "pub fn all_are_even")],
        },
    )

    def call(word):
        its.FILES.clear()
        monkeypatch.setattr("sys.argv", ["headline", word])
        return its.main()

    its.call, its.folder = call, tmp_path
    return its


def test_what_is_counted(headline):
    assert headline.call("--write") == 0
    assert TABLE in (headline.folder / "page.md").read_text(encoding="utf-8")
    assert LAWS in (headline.folder / "laws.md").read_text(encoding="utf-8")
    assert headline.call("--check") == 0


@pytest.mark.parametrize(
    "path, old, new",
    (
        ("crates/low/specs/Even.antt", "IsTwice n = Σ", "IsTwice zero = Unit\nIsTwice n = Σ"),
        ("crates/low/specs/Even.antt", "Even n = IsTwice n ×", "Even n ="),
        (
            "crates/low/src/limits.rt",
            "pub const MOST: u32 = 256;",
            "pub const MOST: u32 =\n    256;",
        ),
        ("crates/high/src/second.rt", "{ Odd result }", "{ result ≡ 1 }"),
        ("crates/high/src/laws.rt", "(n : ℕ) → Even n", "(n : ℕ) → Odd n"),
        ("page.md", "| 4 | 6 |", "| 4 | 5 |"),
        ("laws.md", "| 5 |", "| 6 |"),
    ),
)
def test_another_table_is_refused(headline, path, old, new):
    assert headline.call("--write") == 0
    file = headline.folder / path
    text = file.read_text(encoding="utf-8")
    assert text.count(old) == 1
    file.write_text(text.replace(old, new), encoding="utf-8")
    assert headline.call("--check") == 1


def test_a_comment_counts_nothing(headline):
    assert headline.call("--write") == 0
    file = headline.folder / "crates/low/specs/Even.antt"
    file.write_text(
        file.read_text(encoding="utf-8").replace("IsTwice n = Σ", "-- twice\nIsTwice n = Σ"),
        encoding="utf-8",
    )
    assert headline.call("--check") == 0


@pytest.mark.parametrize("page", ("page.md", "laws.md"))
def test_a_page_without_a_place(headline, page):
    (headline.folder / page).write_text("no table\n", encoding="utf-8")
    assert headline.call("--check") == 2
