"""What tools/weaken-definitions plants into a small crate, and what it says where a proof refuses
it and where none does. In place of `rt` there is a program that takes the crate for proved while a
part of a definition is there."""

import os
import re
import shutil
import subprocess

import pytest
from page_claims import ROOT

TREE = {
    "crates.txt": "low:\n",
    "HANDLES": "",
    "crates/low/src/lib.rt": "#![tactic(auto)]\n\npub mod even;\n",
    "crates/low/src/laws.rt": "pub fn few_are_small()\n"
    "    ensures { (n : ℕ) → IsSmall n → IsFew (n + n) n }\n{}\n",
    "crates/low/specs/Lib.antt": "pub mod Even\npub mod Small\n",
    "crates/low/specs/Even.antt": """use Rattle.std.specs.Prelude.{ℕ, ◌≡◌, ◌≤◌}

pub record IsFew (n half : ℕ) : Type 0 where
  pub even : n ≡ half + half
  pub few : n ≤ 256
""",
    "crates/low/specs/Small.antt": """use Rattle.std.specs.Prelude.{ℕ, ◌≤◌}

pub IsSmall : ℕ → Type 0
IsSmall n = n ≤ 10
""",
    "crates/low/proofs/EvenFacts.antt": "four : IsFew 4 2\n",
    "crates/low/proofs/SmallFacts.antt": """four : IsSmall 4
four = omega arith

eleven : IsSmall 11 → ⊥
eleven h = omega (arith, h)

neither : (IsSmall 11 → ⊥) × (IsSmall 12 → ⊥)
neither = ((λ h. omega (arith, h)), λ h. omega (arith, h))

one_less : (n : ℕ) → IsSmall (suc n) → IsSmall n
one_less n h = omega (arith, h)
""",
}

# The most of the time that a run takes.
LIMIT = 60


@pytest.fixture
def weaken(tmp_path):
    """Runs the tool in a small tree, where a crate is proved if its definitions have each of these
    texts; returns its status and lines."""
    for path, text in TREE.items():
        (tmp_path / path).parent.mkdir(parents=True, exist_ok=True)
        (tmp_path / path).write_text(text, encoding="utf-8")
    for it in ("lib", "weaken-definitions"):
        (shutil.copytree if it == "lib" else shutil.copy)(
            f"{ROOT}/tools/{it}", tmp_path / "tools" / it if it == "lib" else tmp_path / "tools"
        )
    programs = tmp_path / "programs"
    programs.mkdir()

    def call(*words, demands=(), of_all=(), objects=()):
        facts = " && ".join(f"grep -qF '{it}' specs/*.antt" for it in demands) or "true"
        whole = " && ".join(f"grep -qF '{it}' specs/*.antt" for it in of_all) or "true"
        errors = "".join(f"./proofs/SmallFacts.antt:1:1: error: `{it}`: no\\n" for it in objects)
        program = programs / "rt"
        program.write_text(
            "#!/bin/sh\ncase \"$*\" in *--only*) said='only=1 proved=1';; *) "
            "said='logic=proved';; esac\n"
            f"case \"$*\" in *--allow-holes*) printf '{errors}'; exit 1;; esac\n"
            f'{{ {facts}; }} && {{ case "$*" in *--only*) true;; *) {whole};; esac; }} && echo '
            "$said && exit 0\necho 'Facts.antt:1:1: error: no'; exit 1\n",
            encoding="utf-8",
        )
        program.chmod(0o755)
        environment = {**os.environ, "PATH": f"{programs}:{os.environ['PATH']}"}
        words = [str(tmp_path / "tools/weaken-definitions"), "low", *words]
        ran = subprocess.run(words, env=environment, capture_output=True, text=True, timeout=LIMIT)
        said = [re.sub(r" \(\d+ s\).*", "", it) for it in ran.stdout.splitlines()]
        return ran.returncode, said or [ran.stderr.strip()]

    return call


EVEN, FEW, SMALL = "even : n ≡ half + half", "few : n ≤ 256", "IsSmall n = n ≤ 10"
PLANTED = [
    "Even.antt:4 IsFew: even: it says nothing",
    "Even.antt:5 IsFew: few: it says nothing",
    "Small.antt:4 IsSmall: `IsSmall n`: it says nothing",
]


def test_what_is_planted(weaken):
    assert weaken("--list") == (0, PLANTED)


def test_all_are_refused(weaken):
    wanted = [f"refused {it}" for it in PLANTED]
    assert weaken(demands=(EVEN, FEW, SMALL)) == (
        0,
        [*wanted, "weaken-definitions: 3 definitions, 3 tried, 0 got through"],
    )


@pytest.mark.parametrize("number, missing", enumerate((EVEN, FEW, SMALL)))
def test_one_gets_through(weaken, number, missing):
    wanted = [
        f"{'THROUGH' if it == number else 'refused'} {planted}"
        for it, planted in enumerate(PLANTED)
    ]
    demands = [it for it in (EVEN, FEW, SMALL) if it != missing]
    assert weaken(demands=demands) == (
        1,
        [*wanted, "weaken-definitions: 3 definitions, 3 tried, 1 got through"],
    )


def test_the_whole_crate_refuses_what_no_fact_does(weaken):
    wanted = [f"refused {it}" for it in PLANTED]
    last = "weaken-definitions: 3 definitions, 3 tried, {} got through"
    assert weaken(demands=(EVEN, FEW), of_all=(SMALL,)) == (0, [*wanted, last.format(0)])
    assert weaken("--facts", demands=(EVEN, FEW), of_all=(SMALL,)) == (
        1,
        [*wanted[:2], f"THROUGH {PLANTED[2]}", last.format(1)],
    )


def test_a_crate_that_is_not_proved_as_it_is(weaken):
    assert weaken(demands=("nothing like it",)) == (
        1,
        ["weaken-definitions: low isn't proved as it is: Facts.antt:1:1: error: no"],
    )


def test_other_definitions(weaken):
    few = [f"Even.antt:5 IsFew: `pub few : n {it}`" for it in ("< 256", "≤ 255", "≤ 257")]
    small = [f"Small.antt:4 IsSmall: `IsSmall n = n {it}`" for it in ("< 10", "≤ 11", "≤ 9")]
    status, said = weaken("--others", "--list")
    assert (status, sorted(said)) == (0, few + small)


STRONGER = [
    f"Small.antt:4 IsSmall: `IsSmall n`: {it}"
    for it in ("it never holds", "not where n is (suc n)")
]


def test_stronger_definitions(weaken):
    assert weaken("--stronger", "--list") == (0, STRONGER)
    wanted = [f"refused {it}" for it in STRONGER]
    assert weaken("--stronger", objects=("eleven", "four")) == (
        0,
        [*wanted, "weaken-definitions: 2 definitions, 2 tried, 0 got through"],
    )


@pytest.mark.parametrize("objects", ((), ("eleven",), ("neither",), ("one_less",)))
def test_no_positive_fact_objects(weaken, objects):
    last = "weaken-definitions: 2 definitions, 1 tried, 1 got through"
    assert weaken("--stronger", objects=objects) == (1, [f"THROUGH {STRONGER[0]}", last])


def test_a_matrix_says_which_facts_are_needless(weaken, tmp_path):
    matrix = str(tmp_path / "matrix")
    wanted = [f"refused {it}" for it in PLANTED]
    last = "weaken-definitions: 3 definitions, 3 tried, 0 got through"
    assert weaken("--matrix", matrix, objects=("four", "eleven")) == (0, [*wanted, last])
    needless = ["proofs/EvenFacts.antt:four: 1 lines", "proofs/SmallFacts.antt:eleven: 2 lines"]
    needless += [f"proofs/SmallFacts.antt:{it}: 2 lines" for it in ("neither", "one_less")]
    last = "weaken-definitions: 4 of 5 facts, 7 lines"
    assert weaken("--needless", matrix) == (0, [*needless, last])


def test_a_matrix_of_facts_that_no_one_else_replaces(weaken, tmp_path):
    matrix = str(tmp_path / "matrix")
    weaken("--matrix", matrix, "--only", "IsFew", objects=("four",))
    weaken("--matrix", matrix, "--only", "IsSmall", objects=("eleven",))
    said = weaken("--needless", matrix)[1]
    assert not any("Small" in it and ("four" in it or "eleven" in it) for it in said)
