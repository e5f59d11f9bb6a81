"""Bare numbers of a ring's layout (VIRTIO 1.1, 2.6), for tools/check-sources: each has a name."""

import re

from source_files import files, is_test, places

# Numbers of a ring's layout: a table's or a ring's length, an entry's place, and what is counted
# from a ring's begin.
LAYOUTS = re.compile(
    r"\b[46]u? ?\+ ?[28]u? ?\*"
    r"|\b16u? ?\* ?(?:\(|\w*size\b|\w*(?:number|head|next)\b|u(?:64|32|size)\b)"
    r"|\b\w*(?:avail|used|table|start|element_at|index_at)\)?(?:, 0)?(?: \+|,) (?:16|[2468])\b"
)

# The constants themselves, which `monitor/include/ring_layout.h` is made of.
LAYOUT_OWNERS = (
    "crates/vb_ring/src/format.rt",
    "crates/vb_chain/src/descriptor.rt",
    "monitor/include/ring_layout.h",
)
CLAUSE = re.compile(r"\b(?:requires|ensures)\s+(?:\w+\s+)?(\{)")


def without_clauses(text):
    """Returns a source with its clauses blank, and each line where it was."""
    kept, at = "", 0
    for clause in CLAUSE.finditer(text):
        end, depth = clause.start(1), 0
        while end < len(text) and (depth or end == clause.start(1)):
            depth += {"{": 1, "}": -1}.get(text[end], 0)
            end += 1
        kept += text[at : clause.start()] + "\n" * text.count("\n", clause.start(), end)
        at = end
    return kept + text[at:]


def layouts():
    """Returns each line of code with a bare number of a ring's layout."""
    paths = [it for it in files("crates/*/src/**/*.rt") if not is_test(it)]
    paths += files("monitor/reference/*.[ch]", "monitor/backends/**/*.[ch]", "monitor/include/*.h")
    paths = [it for it in paths if it not in LAYOUT_OWNERS]
    return places(
        sorted(set(paths)),
        lambda line: LAYOUTS.search(re.split("//", line)[0]),
        str.strip,
        without_clauses,
    )
