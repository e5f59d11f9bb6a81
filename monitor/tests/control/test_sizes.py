"""Sizes wherever there is one: in a file, on the command line of a host, in lines of its standard
input and in words of the client, with K, M, G and T, in whole pages."""

import os

import pytest
from hosts import Host
from installed import bigvasta
from waiting import patience_from_now

MIB, PAGE = 1 << 20, 4096

# A size, and its bytes; and what is none.
SIZES = (
    ("491520K", 480 * MIB),
    ("480M", 480 * MIB),
    ("3G", 3 << 30),
    ("15T", 15 << 40),
    ("4K", PAGE),
    # The largest: a page more is the number of pages that says that there is no bound.
    ("17179869176K", (16 << 40) - 2 * PAGE),
)
NONE = (
    "6K",
    "16T",
    "17179869180K",
    "17179869184K",
    "17592186044416K",
    "1B",
    "1k",
    "1.5G",
    "0x1M",
    " 1M",
    "M",
    "",
    "9" * 40 + "M",
)


def started(program, folder, *words):
    """Returns a host that is ready."""
    host = Host(program, folder, *words)
    assert host.lines.next(patience_from_now()) == "ready"
    return host


def asked(host, line):
    """Returns the answer to a line."""
    host.process.stdin.write(line.encode() + b"\n")
    host.process.stdin.flush()
    return host.lines.next(patience_from_now())


@pytest.mark.parametrize("size, wanted", SIZES)
def test_a_size_is_the_same_wherever_it_is(program, folder, size, wanted):
    host = started(program, folder, str(folder), "--budget", size, "--floor", size)
    assert [host.status()[it] for it in ("budget", "floor")] == [wanted, wanted]
    assert asked(host, "budget 7") == asked(host, f"floor {size}") == "ok"
    assert [host.status()[it] for it in ("budget", "floor")] == [7 * MIB, wanted]
    assert asked(host, f"add a least={size} overhead={size}").startswith("listening")
    assert bigvasta(host.control, "budget", size).returncode == 0
    assert bigvasta(host.control, "guest", "a", f"most={size}").returncode == 0
    terms = host.guest("a")["terms"]
    assert [terms[it] for it in ("least", "most", "overhead")] == [wanted] * 3
    assert host.end() == 0
    (folder / "file").write_text(
        f"[host]\nfolder = {folder}\nbudget = {size}\noverdraft = {size}\n"
        f"[guest b]\nmost = {size}\n"
    )
    host = started(program, folder, "--config", f"{folder}/file")
    assert (host.status()["budget"], host.status()["overdraft"]) == (wanted, wanted)
    assert host.guest("b")["terms"]["most"] == wanted
    assert host.end() == 0


def test_what_is_no_size(program, folder, host):
    for size in NONE:
        (folder / "file").write_text(f"[host]\nfolder = {folder}\nbudget = {size}\n")
        status = os.spawnv(os.P_WAIT, program, [program, "--check", f"{folder}/file"])
        assert status == (0 if size == " 1M" else 1), size
        assert asked(host, f"budget {size}").startswith("error: "), size
        ran = bigvasta(host.control, "budget", size)
        assert ran.returncode == 2 and "480M" in ran.stderr, size
    assert host.status()["budget"] == 480 * MIB


def test_no_size_is_one_without_a_unit(host):
    assert asked(host, "floor 0") == "ok"
    assert bigvasta(host.control, "floor", "0").stdout.startswith("0 MiB")
    assert bigvasta(host.control, "floor", "7").returncode == 2
