"""Each topic of tools/check-sources finds what is planted for it, in a folder of its own, and
nothing where that is right."""

import os
import subprocess

import code_style
import pytest
import source_files
from page_claims import tool

CHECK = tool("check-sources")

EDIT = "file: src/a.rt\nold:     true\nnew:     false\n"
CRATE = {"crates/a/src/a.rt": "fn f() -> bool {\n    true\n}\n"}
RULE = "rule " + "T" + "4"
WRITER = "static void f(VbDevice *device)\n{\n    %s;\n}\n"
# A topic of a crate, files of the crate, and what is found in them.
OF_CRATES = (
    (
        "leaks",
        {"crates/a/src/a.rt": "    mem::forget(frame);\n"},
        ["crates/a/src/a.rt:1: mem::forget(frame);"],
    ),
    ("leaks", {"crates/a/src/a.rt": "    // never mem::forget(frame)\n"}, []),
    ("leaks", {"crates/a/src/tests/a.rt": "    mem::forget(frame);\n"}, []),
    (
        "citations",
        {"crates/a/specs/A.antt": f"-- {RULE}\n"},
        [f"crates/a/specs/A.antt:1: -- {RULE}"],
    ),
    ("citations", {"crates/a/README.md": "R, S and T\n"}, []),
    ("columns", {"crates/a/src/a.rt": "x" * 101}, ["crates/a/src/a.rt:1: 101 columns"]),
    ("columns", {"crates/a/src/a.rt": "x" * 100}, []),
    ("edits", {**CRATE, "crates/a/must-fail/f-gives_up.edit": EDIT}, []),
    (
        "edits",
        {**CRATE, "crates/a/must-fail/g-gives_up.edit": EDIT},
        ["crates/a/must-fail/g-gives_up.edit: its name begins with no function of the crate"],
    ),
    (
        "edits",
        {**CRATE, "crates/a/must-fail/f-gives_up.edit": EDIT.replace("true", "false")},
        ["crates/a/must-fail/f-gives_up.edit: its old text occurs 0 times"],
    ),
    (
        "numbers",
        {"crates/a/specs/A.antt": "f = status ≡ 15\n"},
        ["crates/a/specs/A.antt:1: READY_STATUS or FAILED_STATUS of vb_virtio: f = status ≡ 15"],
    ),
    ("numbers", {"crates/a/specs/A.antt": "f = status ≡ READY_STATUS\n"}, []),
)

# A topic of all files, these, and what is found in them.
OF_ALL = (
    (
        "strays",
        {"docs/examples/crates.txt": "a: b\n", "docs/a/src/lib.rt": "", "crates/a/data/b.antt": ""},
        ["crates/a/data/b.antt", "docs/a/src/lib.rt", "docs/examples/crates.txt"],
    ),
    (
        "strays",
        {
            "crates.txt": "a: b\n",
            "crates/a/src/b/lib.rt": "",
            "crates/a/proofs/b/C.antt": "",
            "docs/a/src/lib.rt.in": "",
        },
        [],
    ),
    ("lengths", {"tools/lib/a.py": "\n" * 351}, ["tools/lib/a.py: 351 lines"]),
    ("lengths", {"monitor/tests/a/b.c": "\n" * 351}, ["monitor/tests/a/b.c: 351 lines"]),
    ("lengths", {"tools/a": "#!/usr/bin/python3" + "\n" * 351}, ["tools/a: 351 lines"]),
    ("lengths", {"tools/lib/a.py": "\n" * 350, "crates/a/src/tests.rt": "\n" * 351}, []),
    ("lengths", {"tools/lib/a.toml": "\n" * 351}, []),
    ("long_lines", {"monitor/a.h": "x" * 101}, ["monitor/a.h:1: 101 columns"]),
    ("long_lines", {"tools/a": f"#!/usr/bin/python3\n#{'x' * 100}"}, ["tools/a:2: 101 columns"]),
    ("long_lines", {"docs/a.md": f"\n{'x' * 101}\n"}, ["docs/a.md:2: 101 columns"]),
    (
        "long_lines",
        {"docs/a.md": f"|{'x' * 101}|\n```\n{'x' * 101}\n```\n", "tools/b": "x" * 101},
        [],
    ),
    ("formatting", {"monitor/a.c": "int a;\nint  b;\n"}, ["monitor/a.c:2"]),
    ("formatting", {"tools/a.py": "a = 1\n", "tools/b.py": "b = '1'\n"}, ["tools/b.py"]),
    ("formatting", {"monitor/a.c": "int a;\n", "tools/a.py": "a = 1\n"}, []),
    ("unused", {"tools/a.py": "import os\n"}, ["tools/a.py:1:1: 'os' imported but unused"]),
    ("unused", {"tools/a.py": "import os\n\nos.getpid()\n"}, []),
    (
        "writes",
        {"monitor/backends/balloon/a.c": WRITER % "device->status = 3"},
        ["monitor/backends/balloon/a.c:3: device->status = 3;"],
    ),
    (
        "writes",
        {"monitor/backends/balloon/a.c": WRITER % "*device = other"},
        ["monitor/backends/balloon/a.c:3: *device = other;"],
    ),
    (
        "writes",
        {"monitor/backends/balloon/a.c": WRITER % "memset(device, 0, 5)"},
        ["monitor/backends/balloon/a.c:3: memset(device, 0, 5);"],
    ),
    (
        "writes",
        {
            "monitor/backends/balloon/a.c": WRITER % "return device->status == 3",
            "monitor/reference/a.h": WRITER % "device->status = 3",
        },
        [],
    ),
    (
        "floors",
        {
            "crates.txt": (
                "# vb_model\nvb_ram: vb_virtio\nvb_c staticlib: vb_ram\nvb_guest: vb_ram "
                "vb_model\n"
            )
        },
        [],
    ),
    (
        "floors",
        {"crates.txt": "vb_ram: vb_model\nvb_core: vb_ram\nvb_c staticlib: vb_core\n"},
        ["crates.txt: vb_ram ships, and needs vb_model"],
    ),
    (
        "floors",
        {
            "crates.txt": "",
            "monitor/backends/vhost/a.h": '#include "../balloon/b.h"\n',
            "monitor/backends/balloon/b.h": '#include "../vhost/a.h"\n#include "c.h"\n',
        },
        ["monitor/backends/balloon/b.h: vhost is above it"],
    ),
)


@pytest.fixture
def root(tmp_path, monkeypatch):
    """A folder in place of the repository."""
    monkeypatch.setattr(source_files, "ROOT", str(tmp_path))
    return tmp_path


def put(root, files):
    """Writes files into a folder."""
    for path, text in files.items():
        (root / path).parent.mkdir(parents=True, exist_ok=True)
        (root / path).write_text(text, encoding="utf-8")


@pytest.mark.parametrize("topic, files, wanted", OF_CRATES)
def test_of_a_crate(root, topic, files, wanted):
    put(root, files)
    assert getattr(CHECK, topic)("a") == wanted


@pytest.mark.parametrize("topic, files, wanted", OF_ALL)
def test_of_all_files(root, topic, files, wanted):
    put(root, files)
    assert getattr(CHECK, topic)() == wanted


def test_a_formatter_that_is_missing_is_named(root, monkeypatch):
    put(root, {"monitor/a.c": "int  a;\n", "tools/a.py": "import os\n"})
    monkeypatch.setenv("PATH", "/nowhere")
    assert [*code_style.formatting(), *code_style.unused()] == [
        f"{it} isn't there: apt-get install {it}" for it in ("clang-format", "black", "pyflakes3")
    ]


def test_a_link(root):
    put(root, {"docs/a.md": "", ".cache/a": ""})
    assert CHECK.links() == []
    os.symlink("a.md", root / "docs/b.md")
    os.symlink("a", root / ".cache/b")
    assert CHECK.links() == ["docs/b.md"]


def test_a_file_that_clean_deletes(root):
    put(root, {"monitor/Makefile": "clean:\n\trm -rf out made.h\n", "monitor/kept.h": ""})
    subprocess.run(["git", "init", "-q", root], check=True)
    subprocess.run(["git", "-C", root, "add", "."], check=True)
    assert CHECK.cleaned() == []
    put(root, {"monitor/made.h": ""})
    subprocess.run(["git", "-C", root, "add", "."], check=True)
    assert CHECK.cleaned() == ["monitor/made.h"]


@pytest.mark.parametrize(
    "script, wanted",
    (
        ("true", []),
        ("echo 'a.h: differs'; exit 1", ["a.h: differs"]),
        ("exit 1", ["tools/list-codes failed"]),
    ),
)
def test_what_another_tool_refuses(root, script, wanted):
    put(root, {"tools/list-codes": f"#!/bin/sh\n{script}\n"})
    os.chmod(root / "tools/list-codes", 0o755)
    assert CHECK.checked("tools/list-codes") == wanted
