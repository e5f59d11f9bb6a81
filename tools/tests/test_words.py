"""Tests which words, doc comments and commit subjects tools/check-sources refuses, and which it
doesn't."""

import pytest
from words import lines_of, subject_faults, subjects, unused, words_of

# A text, and the words of it that are refused.
TEXTS = (
    ("the number behind the last one", ["behind"]),
    ("a frame behind a page", ["behind"]),
    ("a guest behind one type, and its history behind a lock", []),
    ("what stands there, and where it stood", ["stands", "stood"]),
    ("the clock stands still, and a stand-in understands it", []),
    ("`stands` and [a page](stands.md) are code", []),
    ("so many pages, and so much of it", ["so many", "so much"]),
    ("so much that it is short", []),
    ("it goes on as it mostly does, or else anyhow", ["anyhow", "as it mostly does"]),
    ("Whoever reads many chains keeps one", ["Whoever"]),
    ("refused for want of memory", ["want of memory"]),
    ("a step by chance", ["by chance"]),
    ("a client that isn't always well", ["isn't always well"]),
    ("well-kept, and well said", []),
    ("pages that are asked back", ["asked back"]),
    ("the used entry is written", ["used entry"]),
    ("`a.py` and `b.py` are its.", ["are its."]),
    ("they are its helper modules", []),
    ("the caller owes it", ["owes it"]),
)

# A subject of a commit, and how many faults it has.
SUBJECTS = (
    ("Name each rule by its number", 0),
    ("Pass the budget by value", 0),
    ("Merge main", 0),
    ("Rules are named", 1),
    ("Adding a rule", 1),
    ("Added a rule", 1),
    ("The rules of a chain", 1),
    ("name a rule", 1),
    ("fix: a rule", 2),
    ("Mend crates/vb_ring/src/lib.rt", 1),
    ("Mend a rule.", 1),
    ("Say which rule stands there", 1),
    ("Say " + "which " * 12, 1),
)

# A file, its text, and the lines at which words are refused.
FILES = (
    ("a.rt", "/// What stands there.\nlet stands = behind; // so many\n", [1, 2]),
    ("a.rt", "/// The same for both.\nfn f() {}\n/// A sum.\n/// The same again.\n", [1]),
    ("a.rt", "//! The same, for both.\n", [1]),
    ("a.antt", "-- what stands behind\nstands : behind\n", [1, 1]),
    (
        "a.c",
        "int behind; /* what\n   stands there */\nint stands; // anyhow\nint so = 1;\n",
        [2, 3],
    ),
    ("a.h", "/* a\n   stands\n   behind */\nint stands;\n", [2, 3]),
    ("a.md", "stands\n\n```\nstands\n```\n\n    stands\n\nbehind\n", [1, 9]),
    (
        "a.py",
        (
            '"""What stands.\n\nAnyhow."""\nstands = "behind"  # by chance\n\n\ndef f():\n    '
            '"""Rightly."""\n'
        ),
        [1, 3, 4, 8],
    ),
    ("run", "#!/usr/bin/env bash\n# what stands\nstands behind\n", [2]),
    ("boot", '#!/usr/bin/python3\n"""What stands."""\nstands = "behind"\n', [2]),
    ("draw", '#!/usr/bin/env python3\n"""What\nstands."""\n', [3]),
)


@pytest.mark.parametrize("text, words", TEXTS)
def test_words(text, words):
    assert sorted(found(text)) == sorted(words)


def found(text):
    """Returns the words that are refused in a text."""
    return [it[1:].rpartition("': ")[0] for it in unused(text)]


@pytest.mark.parametrize("subject, count", SUBJECTS)
def test_subjects(subject, count):
    assert len(subject_faults(subject)) == count


@pytest.mark.parametrize("path, text, lines", FILES)
def test_files(path, text, lines):
    assert sorted(int(it.split(":")[1]) for it in words_of(path, text)) == lines


def test_code_is_no_prose():
    assert [line for _, line in lines_of("a.rt", "let a = 1;\n")] == []


def test_without_a_history_no_subject_is_wrong(tmp_path):
    assert subjects(str(tmp_path), "0000000") == []
