"""Writes into what the library alone writes, for tools/check-sources: its structs change by its
calls."""

import re

from source_files import files, places, read

# The fields of VbDevice, VbQueue, VbRound and VbBalloon; who is one, in C and in Rust; and what
# writes it.
FIELDS = (
    "settings|features|target|actual|inflate|deflate|statistics|hint|report|poison|round|status"
    "|device|held|table|avail|used|size|next_avail|next_used|shown|last|opened"
)
HAS_FIELDS = re.compile(
    r"\b(?:Vb(?:Device|Queue|Round|Balloon)\b\s*\**\s*(?:const\s+)?(\w+)"
    r"|(\w+):\s*&?(?:mut\s+)?(?:raw::)?(?:Device|Queue|Round|Balloon)\b)"
)
ASSIGNS = r"(?:[-+*/%&|^]|<<|>>)?=(?!=)|\+\+|--"

# Who may write them: what is in the library's place (in a test, or on the bench), and tests of
# states to which no calls lead, or of a backend that is wrong on purpose.
WRITERS = re.compile(
    r"^monitor/(?:reference/|bench/bench_(?:least|plain)\.c"
    r"|tests/(?:frama_c/library\.h|any/|mutants/wrong_backend\.c|saved\.c|refusals\.c|scribble\.c))"
)


def writes():
    """Returns the lines of `monitor` that write a field which is the library's to write."""
    found = []
    for path in files("monitor/**/*.[ch]", "monitor/rust/**/*.rs"):
        text = read(path)
        names = "|".join(
            sorted({it for pair in HAS_FIELDS.findall(text) for it in pair if it} | {"state"})
        )
        field = (
            rf"\b(?:{names})(?:\[\w*\])?(?:->|\.)(?:0\.)?(?:{FIELDS})\b[\w.\[\]]*\s*(?:{ASSIGNS})"
        )
        through = rf"\)\s*(?:->|\.)(?:{FIELDS})\b[\w.]*\s*(?:{ASSIGNS})"
        whole = rf"(?:^|[;{{}}])\s*\*(?:{names})\s*=(?!=)"
        filled = (
            rf"\bmem(?:set|cpy|move)\(&?(?:\w+(?:->|\.))*(?:{names})(?:(?:->|\.)(?:{FIELDS}))*\s*,"
        )
        is_write = re.compile(f"{field}|{through}|{whole}|{filled}")
        if not WRITERS.match(path):
            found += places([path], is_write.search, str.strip)
    return found
