"""tools/check-fences finds each fence of the shims, and misses each that is taken out of a copy, or
put elsewhere."""

import shutil

import pytest
from linux_kit import MONITOR
from page_claims import tool
from wrong_edits import WRONG, planted

CHECK = tool("check-fences")

# Wrong shims of wrong_edits.py, and the rows of ORDERS that each of them misses.
MISSED = {
    "no acquire fence": ["an acquire fence after the available index"],
    "no release fence": ["a release fence before the used index"],
    "no full fence": 2 * ["a full fence before the flags"],
    "full fence after the flags": 2 * ["a full fence before the flags"],
    "release fence after the index": ["a release fence before the used index"],
}


# Patterns of instructions, the code, and whether they are in order in it: none like the last one
# may come between, nor another word before.
GIVES = next(
    patterns for processor, _, function, _, patterns in CHECK.ORDERS if function == "gives"
)
CODES = (
    (["str w1, [x2]", "str w3, [x4]", "dmb ish", "strh w5, [x6]"], True),
    (["mov x1, x2", "str w1, [x2]", "add x1, x2", "str w3, [x4]", "dmb ish", "ret"], False),
    (["str w1, [x2]", "str w3, [x4]", "strh w5, [x6]", "dmb ish", "strh w5, [x6]"], False),
    (["strh w5, [x6]", "str w1, [x2]", "str w3, [x4]", "dmb ish", "strh w5, [x6]"], False),
    (["str w1, [x2]", "str w3, [x4]", "dmb ishld", "strh w5, [x6]"], False),
)


@pytest.mark.parametrize("lines, wanted", CODES)
def test_the_order_of_instructions(lines, wanted):
    assert CHECK.stand_in_order([f"\t{it}" for it in lines], GIVES) == wanted


def missing(monitor, folder):
    """Returns which fences of the C shim are missing."""
    rows = [
        (what, patterns, CHECK.code_of(words, monitor, str(folder)).get(function, []))
        for _, words, function, what, patterns in CHECK.ORDERS
    ]
    return [what for what, patterns, lines in rows if not CHECK.stand_in_order(lines, patterns)]


@pytest.fixture
def copy(tmp_path):
    """A copy of what check-fences compiles."""
    for it in ("include", "tests"):
        shutil.copytree(f"{MONITOR}/{it}", tmp_path / "monitor" / it)
    return tmp_path / "monitor"


def test_the_shim_has_each_fence(tmp_path):
    assert missing(MONITOR, tmp_path) == []


@pytest.mark.parametrize("name", MISSED)
def test_a_fence_that_is_missing(copy, tmp_path, name):
    for it in next(it for it in WRONG if it.name == name).edits:
        text = (copy / it.file).read_text(encoding="utf-8")
        (copy / it.file).write_text(planted(text, it.old, it.new), encoding="utf-8")
    assert missing(str(copy), tmp_path) == MISSED[name]


def test_a_shim_that_is_not_compiled(copy, tmp_path):
    (copy / "include/balloon.h").write_text("#error\n", encoding="utf-8")
    with pytest.raises(CHECK.Fault, match="isn't compiled"):
        missing(str(copy), tmp_path)


@pytest.mark.timeout(600)
def test_a_fence_of_the_rust_crate(tmp_path):
    for it in ("include", "reference", "rust"):
        shutil.copytree(
            f"{MONITOR}/{it}", tmp_path / "monitor" / it, ignore=shutil.ignore_patterns("target")
        )
    path = tmp_path / "monitor/rust/src/obey.rs"
    text = path.read_text(encoding="utf-8")
    assert text.count("        fence(order);\n") == 1
    wrong = "match order { Ordering::SeqCst => fence(order), _ => fence(Ordering::Acquire) }"
    path.write_text(text.replace("fence(order);", wrong), encoding="utf-8")
    assert CHECK.fences_in_rust(str(tmp_path / "monitor"), str(tmp_path)) == {"acquire", "seq_cst"}
