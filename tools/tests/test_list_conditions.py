"""Which conditions tools/list-conditions lists, in a small tree."""

import pytest
from page_claims import tool

TREE = {
    "crates.txt": "low:\nabove: low\n",
    "crates/above/src/lib.rt": "pub mod end;\n",
    "crates/above/src/end.rt": "pub fn last(n: u32)\n    requires { n ≤ 9 }\n{\n}\n",
    "crates/low/src/lib.rt": "pub mod open;\nmod shut;\npub use shut::{Ring, shown};\n",
    "crates/low/src/open.rt": """pub fn first(n: u32) -> u32
    requires few { n ≤ 256 }
    ensures { result ≡ n }
{
    n
}

fn hidden(n: u32) -> u32
    requires { n ≤ 3 }
{
    n
}

pub fn free(n: u32) -> u32 {
    n
}
""",
    "crates/low/src/shut.rt": """pub fn shown(n: u32) -> u32
    requires {
        n ≤ 256 }
{
    n
}

pub fn kept(n: u32) -> u32
    requires { n ≤ 5 }
{
    n
}

impl Ring {
    pub fn add(&mut self, n: u32)
        requires { n ≤ 7 }
        requires { n ≢ 3 | 4 }
    {
    }
}
""",
    "crates/low/src/shut/below.rt": """impl<P: Pace> Ring<P> {
    pub fn take(&mut self)
        requires { self.old.used ≡ [] }
    {
    }
}
""",
    "crates/low/src/tests/rings.rt": """impl Ring {
    pub fn fill(&mut self, n: u32)
        requires { n ≤ 2 }
    {
    }
}
""",
}

ABOVE = "| `above` | `last` | `n ≤ 9` |"

LOW = (
    "| `low` | `first`, `shown` | `n ≤ 256` |",
    "| `low` | `Ring::add` | `n ≤ 7`<br>`n ≢ 3 &#124; 4` |",
    "| `low` | `Ring::take` | `self.old.used ≡ []` |",
)


@pytest.fixture
def lister(tmp_path, monkeypatch, capsys):
    """The tool over a small tree, which answers the rows that it prints."""
    its = tool("list-conditions")
    for path, text in TREE.items():
        (tmp_path / path).parent.mkdir(parents=True, exist_ok=True)
        (tmp_path / path).write_text(text, encoding="utf-8")
    monkeypatch.setattr(its, "ROOT", str(tmp_path))

    def call(*names):
        monkeypatch.setattr("sys.argv", ["list-conditions", *names])
        its.main()
        printed = capsys.readouterr().out.splitlines()
        assert printed[:2] == ["| Crate | Calls | Conditions |", "|---|---|---|"]
        return printed[2:]

    its.call, its.folder = call, tmp_path
    return its


def test_which_conditions_are_listed(lister):
    assert lister.call() == [*LOW, ABOVE]


@pytest.mark.parametrize(
    "names, rows", ((["low"], [*LOW]), (["above"], [ABOVE]), (["above", "low"], [ABOVE, *LOW]))
)
def test_of_which_crates(lister, names, rows):
    assert lister.call(*names) == rows


def test_a_crate_that_is_not_there(lister):
    with pytest.raises(SystemExit) as ended:
        lister.call("lower")
    assert ended.value.code == 2


@pytest.mark.parametrize(
    "path, old, new, gone, come",
    (
        (
            "crates/low/src/open.rt",
            "requires few { n ≤ 256 }",
            "requires few { n ≤ 255 }",
            LOW[:1],
            ["| `low` | `first` | `n ≤ 255` |", "| `low` | `shown` | `n ≤ 256` |"],
        ),
        (
            "crates/low/src/open.rt",
            "fn hidden",
            "pub fn hidden",
            [],
            ["| `low` | `hidden` | `n ≤ 3` |"],
        ),
        (
            "crates/low/src/lib.rt",
            "{Ring, shown}",
            "{Ring}",
            LOW[:1],
            ["| `low` | `first` | `n ≤ 256` |"],
        ),
        (
            "crates/low/src/shut.rt",
            "        requires { n ≤ 7 }\n",
            "",
            LOW[1:2],
            ["| `low` | `Ring::add` | `n ≢ 3 &#124; 4` |"],
        ),
    ),
)
def test_what_another_source_has(lister, path, old, new, gone, come):
    file = lister.folder / path
    text = file.read_text(encoding="utf-8")
    assert text.count(old) == 1
    file.write_text(text.replace(old, new), encoding="utf-8")
    rows = lister.call("low")
    assert sorted(set(LOW) - set(rows)) == sorted(gone)
    assert sorted(set(rows) - set(LOW)) == sorted(come)
