"""Which lines tools/check-sources takes for a bare number of a ring's layout, and which it
doesn't."""

import pytest
import source_files
from ring_layouts import LAYOUT_OWNERS, layouts

# Lines of Rattle and of C as a ring's layout is written without names (VIRTIO 1.1, 2.6).
BARE = (
    "let used = (avail + (6 + 2 * size)).next_multiple_of(4);",
    "let at = start + 4 + 2 * usize::from(next % size);",
    "let index = read_u16(ram, ring.page, start + 2);",
    "&& is_part(end, self.table, 16, 16 * size)",
    "&& is_part(end, self.used, 4, RING_META_SIZE + USED_ELEMENT_SIZE * size)",
    "let start = 16 * u64::from(walk.first);",
    "None => find_from(regions, device.ring(kind).avail, 2, 2),",
    "match find_from(regions, entry.element_at, 0, 4) {",
    "if !region.holds(entry.index_at, 2) {",
    "&& memory_holds(&backend->memory, used, 6 + 8u * queue->size);",
    "const uint8_t *at = table + 16 * (size_t)number;",
    "used.element_at = queue->used + 4 + 8 * (uint64_t)(queue->next_used % queue->size);",
    "if (!memory_word(&backend->memory, at->used + 2, &used))",
)

# Lines that say the same by names, or something else.
NAMED = (
    "let at = start + ENTRIES_AT + AVAIL_ENTRY * usize::from(next % size);",
    "&& is_part(end, self.table, TABLE_ALIGNMENT, DESCRIPTOR_SIZE as u64 * size)",
    "None => find_from(regions, device.ring(kind).avail, RING_INDEX_AT, RING_WORD_SIZE),",
    "if (!memory_word(&backend->memory, at->used + RING_INDEX_AT, &used))",
    "let number = 2 * pages + 4;  // 6 + 2 * size",
    "static const uint8_t STATE_BEGINS[16] = { 0 };",
    "let bytes = 16 * frames;",
)

# A function with a clause, which may say the sum as its definition does, and a line of its body,
# which may not.
CLAUSED = """fn length(size: u64) -> u64
    requires few { size ≤ 256 }
    ensures { (k : ℕ) → record {
        length = 6 + 8 * size } }
{
    6 + 8 * size
}
"""


@pytest.fixture
def found(tmp_path, monkeypatch):
    """Returns the places that are found in a folder with this one file."""
    monkeypatch.setattr(source_files, "ROOT", str(tmp_path))

    def look(path, text):
        (tmp_path / path).parent.mkdir(parents=True)
        (tmp_path / path).write_text(text, encoding="utf-8")
        return layouts()

    return look


@pytest.mark.parametrize("line", BARE)
@pytest.mark.parametrize(
    "path", ("crates/a/src/a.rt", "monitor/backends/balloon/a.c", "monitor/reference/a.h")
)
def test_a_bare_number_is_found_in_its_place(found, path, line):
    assert found(path, f"\n    {line}\n") == [f"{path}:2: {line}"]


@pytest.mark.parametrize("line", NAMED)
def test_names_and_other_numbers_are_not(found, line):
    assert found("crates/a/src/a.rt", line) == []


MAY = (
    *LAYOUT_OWNERS,
    "crates/a/src/tests.rt",
    "crates/a/src/tests/b.rt",
    "monitor/tests/guest.h",
    "monitor/tests/order.c",
)


@pytest.mark.parametrize("path", MAY)
def test_owners_and_tests_may_have_them(found, path):
    assert found(path, BARE[0]) == []


def test_a_clause_may_and_a_body_may_not(found):
    assert found("crates/a/src/a.rt", CLAUSED) == ["crates/a/src/a.rt:6: 6 + 8 * size"]
