"""Where what VERSION says is repeated, in which form, and what is there now."""

import re

# A string, and 65,536 times the first number, 256 times the second, and the third: in C, and in
# Rust.
STRING, C, RUST = '"{0}"', "{1:#08x}u", "{1:#09_x}"

# A file, what the version's line begins with, and the form of the version after that.
PLACES = (
    ("crates/vb_c/vb.h", "#define VB_VERSION ", STRING),
    ("crates/vb_c/vb.h", "#define VB_VERSION_NUMBER ", C),
    ("crates/vb_c/src/saving.rt", "const VERSION: u32 = ", RUST),
    ("monitor/rust/Cargo.toml", "version = ", STRING),
    ("monitor/rust/ctests/Cargo.toml", "version = ", STRING),
    ("client/bigvasta/__init__.py", "__version__ = ", STRING),
)


def placed(text, begin, form, version):
    """Returns a file's text with this version in its place, or none where it has no place."""
    number = int.from_bytes(bytes(map(int, version.split("."))), "big")
    found, count = re.subn(
        rf'(?m)^({re.escape(begin)})[\w."]+', lambda it: it[1] + form.format(version, number), text
    )
    return found if count == 1 else None
