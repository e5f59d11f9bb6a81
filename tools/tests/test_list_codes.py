"""A number that is changed in one place is refused by tools/list-codes, in a copy of what it
reads."""

import os
import shutil
import subprocess

import pytest

ROOT = os.path.realpath(os.path.join(os.path.dirname(__file__), "../.."))

# What the tool reads.
CRATES = (
    "vb_virtio",
    "vb_ram",
    "vb_chain",
    "vb_ring",
    "vb_request",
    "vb_core",
    "vb_monitor",
    "vb_c",
)
READ = (
    *(f"crates/{it}/src" for it in CRATES),
    "crates.txt",
    "crates/vb_c/vb.h",
    "crates/vb_c/vb_numbers.h",
    "docs/RULES.md",
    "docs/INTEGRATION.md",
    "monitor/backends/balloon/codes.c",
    "monitor/reference/reference.h",
    "monitor/include/ring_layout.h",
    "tools/list-codes",
    *(f"tools/lib/{it}.py" for it in ("source_constants", "source_files", "version_places")),
    "VERSION",
    "client/bigvasta/__init__.py",
    "monitor/rust/Cargo.toml",
    "monitor/rust/ctests/Cargo.toml",
)

# Seconds that a call of the tool has.
LIMIT = 60

HEADER, REFERENCE = "crates/vb_c/vb_numbers.h", "monitor/reference/reference.h: rules"
WORDS = "monitor/backends/balloon/codes.c"
LAYOUT = "monitor/include/ring_layout.h"
RULES, CODES = "docs/RULES.md", "docs/INTEGRATION.md"

# A file, its text, what is there in place of it, and what the tool then says differs.
CHANGES = (
    (
        "crates/vb_monitor/src/answers.rt",
        "NOT_READY: u32 = 3",
        "NOT_READY: u32 = 99",
        [HEADER, f"{WORDS}: answers", f"{CODES}: VB_NOT_READY is 3"],
    ),
    (
        "crates/vb_monitor/src/answers.rt",
        "NOT_READY: u32 = 3",
        "NOT_READY: u32 = 2",
        [
            "answers: two codes of one number",
            HEADER,
            f"{WORDS}: answers",
            f"{CODES}: VB_NOT_READY is 3",
        ],
    ),
    ("crates/vb_c/src/kinds.rt", "REPORT: u32 = 3", "REPORT: u32 = 6", [HEADER]),
    ("crates/vb_c/src/bits.rt", "READ: u32 = 128", "READ: u32 = 1048576", [HEADER]),
    ("crates/vb_c/src/places.rt", "EMPTY: u32 = 2", "EMPTY: u32 = 4", [HEADER]),
    (
        "crates/vb_chain/src/fault.rt",
        "BadPage = 9",
        "BadPage = 11",
        [HEADER, REFERENCE, f"{WORDS}: rules", f"{RULES}: BadPage is 9"],
    ),
    ("crates/vb_chain/src/fault.rt", '"no such page"', '"no page"', [HEADER, f"{WORDS}: rules"]),
    (
        "crates/vb_core/src/ring.rt",
        "MAX_RING_SIZE: u16 = 1024",
        "MAX_RING_SIZE: u16 = 512",
        [HEADER],
    ),
    (
        "crates/vb_virtio/src/layout.rt",
        "MAX_STATISTICS_LENGTH: u32 = 1020",
        "MAX_STATISTICS_LENGTH: u32 = 1030",
        [HEADER],
    ),
    (
        "crates/vb_core/src/format.rt",
        "SAVED_LENGTH: usize = 240",
        "SAVED_LENGTH: usize = 244",
        [HEADER],
    ),
    (
        "crates/vb_chain/src/descriptor.rt",
        "DESCRIPTOR_SIZE: usize = 16",
        "DESCRIPTOR_SIZE: usize = 32",
        [LAYOUT],
    ),
    (
        "crates/vb_ring/src/format.rt",
        "USED_ELEMENT_SIZE: u64 = 8",
        "USED_ELEMENT_SIZE: u64 = 12",
        [LAYOUT],
    ),
    ("crates/vb_ring/src/format.rt", "const RING_META_SIZE", "const RING_REST_SIZE", [LAYOUT]),
    (LAYOUT, "RING_INDEX_AT = 2", "RING_INDEX_AT = 0", [LAYOUT]),
    (HEADER, "VB_NOT_READY = 3", "VB_NOT_READY = 4", [HEADER]),
    (HEADER, "VB_MAX_FIGURES = 102", "VB_MAX_FIGURES = 101", [HEADER]),
    (
        "monitor/reference/reference.h",
        "list-codes: rules, to here",
        "",
        ["monitor/reference/reference.h: no place for rules"],
    ),
    (
        "crates/vb_c/vb.h",
        "#define VB_VERSION_NUMBER 0x",
        "#define VB_VERSION_NUMBER 0x1",
        ["crates/vb_c/vb.h: #define VB_VERSION_NUMBER"],
    ),
    (
        "crates/vb_c/src/saving.rt",
        "const VERSION: u32 = 0x0",
        "const VERSION: u32 = 0x1",
        ["crates/vb_c/src/saving.rt: const VERSION: u32 ="],
    ),
    (
        "client/bigvasta/__init__.py",
        "__version__ =",
        "__version__: str =",
        ["client/bigvasta/__init__.py: no place for __version__ ="],
    ),
    ("monitor/reference/reference.h", "BAD_PAGE = 9", "BAD_PAGE = 8", [REFERENCE]),
    (WORDS, '[9] = "no such page"', '[9] = "a reserved page"', [f"{WORDS}: rules"]),
    (WORDS, "VB_MISPLACED: the queue", "VB_MISPLACED: a queue", [f"{WORDS}: answers"]),
    (RULES, "7 IndexJump", "8 IndexJump", [f"{RULES}: IndexJump is 8"]),
    (RULES, "10 ReservedPage", "a reserved page", [f"{RULES}: no number for ReservedPage"]),
    (CODES, "| 12 | `VB_BAD_SUM`", "| 11 | `VB_BAD_SUM`", [f"{CODES}: VB_BAD_SUM is 11"]),
    (
        CODES,
        "| 13 | `VB_IMPOSSIBLE`",
        "| 13 | `VB_NEVER`",
        [f"{CODES}: VB_NEVER is 13", f"{CODES}: no number for VB_IMPOSSIBLE"],
    ),
)

# A file that repeats the version 1.18.3, and how.
WITH_VERSION = (
    ("crates/vb_c/vb.h", '#define VB_VERSION "1.18.3"\n'),
    ("crates/vb_c/vb.h", "#define VB_VERSION_NUMBER 0x011203u\n"),
    ("crates/vb_c/src/saving.rt", "const VERSION: u32 = 0x01_1203;\n"),
    ("monitor/rust/Cargo.toml", '\nversion = "1.18.3"\n'),
    ("monitor/rust/ctests/Cargo.toml", '\nversion = "1.18.3"\n'),
    ("client/bigvasta/__init__.py", '__version__ = "1.18.3"\n'),
)


class Copy:
    """A copy of what the tool reads, and the tool in it."""

    def __init__(self, folder):
        self.folder = folder
        for path in READ:
            there = f"{folder}/{path}"
            os.makedirs(os.path.dirname(there), exist_ok=True)
            (shutil.copytree if os.path.isdir(f"{ROOT}/{path}") else shutil.copy)(
                f"{ROOT}/{path}", there
            )

    def call(self, word):
        """Calls the tool; returns its status and what it says."""
        ran = subprocess.run(
            [f"{self.folder}/tools/list-codes", word], capture_output=True, text=True, timeout=LIMIT
        )
        assert ran.stderr == ""
        return ran.returncode, ran.stdout.splitlines()

    def text(self, path):
        """Returns a file of the copy."""
        with open(f"{self.folder}/{path}", encoding="utf-8") as file:
            return file.read()

    def change(self, path, old, new):
        """Puts another text once into a file of the copy."""
        text = self.text(path)
        assert text.count(old) == 1, f"{path}: {old}"
        with open(f"{self.folder}/{path}", "w", encoding="utf-8") as file:
            file.write(text.replace(old, new))


@pytest.fixture
def copy(tmp_path):
    return Copy(str(tmp_path))


def test_the_repository_is_as_the_owners_have_it(copy):
    assert copy.call("--check") == (0, [])


@pytest.mark.parametrize("path, old, new, wanted", CHANGES)
def test_a_change_in_one_place_is_refused_by_name(copy, path, old, new, wanted):
    copy.change(path, old, new)
    status, said = copy.call("--check")
    assert (
        status,
        [it.removesuffix(": not what tools/list-codes --write makes") for it in said],
    ) == (1, wanted)


def test_a_change_of_the_owner_is_written_to_all_tables(copy):
    copy.change("crates/vb_c/src/bits.rt", "COPY: u32 = 256", "COPY: u32 = 1048576")
    copy.change("crates/vb_chain/src/fault.rt", "BadPage = 9", "BadPage = 11")
    assert copy.call("--write") == (1, [f"{RULES}: BadPage is 9"])
    assert "VB_COPY = 1048576, " in copy.text(HEADER)
    assert "10 a reserved page; 11 no such page. */" in " ".join(
        copy.text(HEADER).replace("\n *", "").split()
    )
    assert "RESERVED_PAGE = 10, BAD_PAGE = 11 };" in copy.text("monitor/reference/reference.h")
    assert '[11] = "no such page",\n' in copy.text(WORDS)


def test_a_version_that_rises_is_written_wherever_it_is_repeated(copy):
    version = copy.text("VERSION")
    copy.change("VERSION", version, "1.18.3\n")
    assert len(copy.call("--check")[1]) == len(WITH_VERSION)
    assert copy.call("--write") == (0, [])
    assert [path for path, text in WITH_VERSION if text not in copy.text(path)] == []


def test_what_is_written_stays(copy):
    before = {it: copy.text(it) for it in (HEADER, "monitor/reference/reference.h", WORDS)}
    assert copy.call("--write") == (0, [])
    assert {it: copy.text(it) for it in before} == before
