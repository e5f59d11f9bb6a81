"""Which definitions are planted that say more, in a small crate, worked out by hand: of premises
that no function promises."""

import pytest
from stronger_definitions import stronger_definitions

TREE = {
    "specs/Runs.antt": """use Rattle.std.specs.Prelude.{ℕ, ◌≡◌, List, [], ◌∷◌}
use Rattle.low.specs.Events.{Event}

-- No event is left, or more are.
pub IsRun : ℕ → List Event → Type 0
IsRun n [] = Unit {0}
IsRun n (event ∷ events) =
    IsRun n events

pub record IsLast (events : List Event) : Type 0 where
  pub event : Event
  pub whole : events ≡ event ∷ []

pub IsShort : List Event → Type 0
IsShort events = IsLast events → length events ≡ 1

pub IsBegun : Event → Type 0
IsBegun (Begins n) = n ≡ 0
IsBegun Ends = ⊥
IsBegun Stops = ⊥
""",
    "specs/Events.antt": """use Rattle.std.specs.Prelude.{ℕ}

pub data Event : Type 0 where
  Begins : (n : ℕ) → Event
  Ends Stops : Event
""",
    "src/laws.rt": """/// A law.
pub fn runs_are_short()
    ensures { (first : Event) (events : List Event) →
        IsBegun first → IsRun 1 events → IsShort events }
{}
""",
    "src/run.rt": """pub fn run(n: u32) -> u32
    ensures short { IsShort events }
{
    n
}
""",
}

FRONT = "IsRun n (event ∷ events)"
PLANTED = [
    "6 IsRun: `IsRun n []`: it never holds",
    "6 IsRun: `IsRun n []`: not where n is (suc n)",
    *(
        f"7 IsRun: `{FRONT}`: {it}"
        for it in (
            "it never holds",
            "not where n is (suc n)",
            "not where event is (Begins a0)",
            "not where event is Ends",
            "not where event is Stops",
            "not where events is (x ∷ xs)",
        )
    ),
    "12 IsLast: `pub whole`: it never holds",
    "12 IsLast: `pub whole`: not where events is (x ∷ xs)",
    "18 IsBegun: `IsBegun (Begins n)`: it never holds",
    "18 IsBegun: `IsBegun (Begins n)`: not where n is (suc n)",
]


@pytest.fixture
def planted(tmp_path):
    """What is planted into the crate."""
    for path, text in TREE.items():
        (tmp_path / "crates/low" / path).parent.mkdir(parents=True, exist_ok=True)
        (tmp_path / "crates/low" / path).write_text(text, encoding="utf-8")
    crates = [str(tmp_path / "crates/low")]
    return stronger_definitions(crates[0], crates, crates)


def test_what_is_planted(planted):
    assert list(map(str, planted)) == [f"Runs.antt:{it}" for it in PLANTED]


def test_a_clause_that_never_holds(planted):
    assert planted[2].text == TREE["specs/Runs.antt"].replace(
        f"{FRONT} =\n    IsRun n events", f"{FRONT} = ⊥"
    )


def test_a_case_that_never_holds(planted):
    helper = (
        "abbrev pub unless_planted : Event → Type 0 → Type 0\nunless_planted (Planted a0) said = "
        "⊥\nunless_planted it said = said\n\n"
    )
    wanted = TREE["specs/Runs.antt"].replace("pub IsRun :", f"{helper}pub IsRun :")
    wanted = wanted.replace(
        f"{FRONT} =\n    IsRun n events", f"{FRONT} = unless_planted event (IsRun n events)"
    )
    imported = "use Rattle.low.specs.Events.{Begins as Planted}\n"
    assert planted[4].text.replace(imported, "") == wanted
    assert planted[4].text.count(imported) == 1


def test_a_field_that_never_holds_in_a_case(planted):
    assert "  pub whole : unless_planted events (events ≡ event ∷ [])\n" in planted[9].text
    assert "unless_planted (x ∷ xs) said = ⊥\n" in planted[9].text


@pytest.mark.parametrize(
    "path, old, new, gone",
    (
        ("src/laws.rt", "IsRun 1 events → ", "", "IsRun"),
        ("src/laws.rt", "→ IsShort events }", "→ IsLast events }", ""),
        ("src/run.rt", "{ IsShort events }", "{ (IsShort events) × (IsRun 0 events) }", "IsRun"),
        ("src/run.rt", "{ IsShort events }", "{ IsLast events }", "IsLast"),
    ),
)
def test_which_are_premises(tmp_path, planted, path, old, new, gone):
    names = {it.name for it in planted}
    file = tmp_path / "crates/low" / path
    text = file.read_text(encoding="utf-8")
    assert text.count(old) == 1
    file.write_text(text.replace(old, new), encoding="utf-8")
    crates = [str(tmp_path / "crates/low")]
    assert {it.name for it in stronger_definitions(crates[0], crates, crates)} == names - {gone}
