"""What tools/try says before it builds anything, and after its guests have worked."""

from types import SimpleNamespace

import pytest
from page_claims import tool

TRY = tool("try")


@pytest.mark.parametrize("lacking", (["libinih-dev"], ["make", "gcc"]))
def test_missing_packages_are_named_first(monkeypatch, capsys, lacking):
    monkeypatch.setattr(TRY, "missing", lambda packages: [it for it in packages if it in lacking])
    monkeypatch.setattr(TRY, "vmm_of", None)
    monkeypatch.setattr("sys.argv", ["try"])
    assert TRY.main() == 2
    out = capsys.readouterr()
    assert (out.out, out.err) == (
        "",
        f"try: packages are missing: apt-get install {' '.join(lacking)}\n",
    )


def town(held, above=(), checked=(3, 4, 5)):
    """A town after its work: what its guests held at each look."""
    return SimpleNamespace(
        samples=[SimpleNamespace(held=it) for it in held],
        above=lambda: [*above],
        members=[SimpleNamespace(checked=it) for it in checked],
    )


def test_three_sentences():
    promised, held, kept = TRY.sentences(town([(100, 50, 30), (200, 100, 101)]), 0)
    assert promised == "Promised: 3 guests have 768 MiB, on a host that has 480."
    assert held == "Held: at most 401 MiB at 2 looks, never more than its 480."
    assert kept == (
        "Kept: 12 sums of what guests had written were right, each byte of it, and no process was "
        "killed."
    )


def test_what_was_not_as_promised_is_said():
    _, held, kept = TRY.sentences(town([(200, 200, 200), (1, 1, 1)], above=(120.0,)), 2)
    assert (
        held
        == "Held: at most 600 MiB at 2 looks, more than its 480 at 1 of them, by 120.0 at most."
    )
    assert kept.endswith("and 2 processes were killed.")


def test_seconds_are_a_number(monkeypatch, capsys):
    monkeypatch.setattr("sys.argv", ["try", "--seconds", "0"])
    with pytest.raises(SystemExit, match="2"):
        TRY.main()
    assert "a second at least" in capsys.readouterr().err
