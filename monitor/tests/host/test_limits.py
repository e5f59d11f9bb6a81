"""Limits that the kernel enforces: the size of a tmpfs that has a guest's memory, and a cgroup, of
the version that this machine has, both real. A limit is raised before its guest has pages, and
lowered after they came."""

import errno
import os
import socket
import struct
import time

import pytest
from bigvasta.connection import Connection
from bigvasta.statuses import Refused
from host_places import FIRST, SECOND, Cgroup, Mount, cgroups, run
from tenants import FREE, begin_writer, eventually, go_on, stop, writer_of
from test_strict import GIVEN, STRICT, used, waits_of
from vhost_client import DEFLATE, PAGE, Client
from waiting import PATIENCE

# Pages of a guest.
ALL, ANY = 128, (1 << 32) - 1

pytestmark = pytest.mark.skipif(os.geteuid() != 0, reason="mounts and cgroups are for root")


def test_a_limit_follows_its_loan(one):
    lender, a, _, its = one
    assert its.pages() == ALL
    a.give(GIVEN[:50])
    lender.become("a", lent=78, limit=78)
    assert its.pages() == 78
    lender.set_budget(ALL + 88)
    a.take(GIVEN[:10])
    used(a, DEFLATE, 1)
    assert its.pages() == 88
    lender.become("a", lent=88, limit=88, waits="nothing", limit_failures=0)


def test_a_limit_is_lowered_after_pages_came(one):
    """A target alone lowers nothing."""
    lender, a, _, its = one
    lender.demand("a target 50")
    time.sleep(0.5)
    assert (its.pages(), lender.guests()["a"]["target"]) == (ALL, 50)
    a.give(GIVEN[:30])
    lender.become("a", limit=ALL - 30)
    assert its.pages() == ALL - 30


def test_a_limit_is_raised_before_its_grant(one):
    """Its writer is held up: the guest has nothing until that continues, and nobody else waits."""
    lender, a, b, its = one
    a.give(GIVEN[:50])
    lender.become("a", limit=78)
    writer = writer_of(lender, "a")
    stop(writer)
    lender.set_budget(ALL + 88)
    a.take(GIVEN[:10])
    lender.become("a", lent=88, waits="deflate")
    b.give(GIVEN[:20]), b.take(GIVEN[:5])
    used(b, DEFLATE, 1)
    time.sleep(0.5)
    assert (a.client.used(DEFLATE)[0], its.pages()) == (0, 78)
    assert waits_of(lender, "a") == "deflate"
    go_on(writer)
    used(a, DEFLATE, 1)
    assert its.pages() == 88


def test_who_comes_has_its_limit_first(lend, limits):
    lender, its = lend(1, *STRICT), limits("a")
    lender.demand(f"add a overhead=0 limit={its.term}")
    client = Client(f"{lender.folder}/a")
    client.negotiate()
    client.hand_over_memory()
    assert its.pages() == ALL
    client.leave()
    lender.become("a", here=0, limit=0)
    assert its.pages() == ALL


def test_overhead_is_beside_the_loan(lend, come, limits):
    lender, its = lend(1, *STRICT), limits("a")
    guest = come(lender, "a", {FREE: 100}, f"overhead=1 limit={its.term}")
    lender.set_budget(78)
    guest.give(GIVEN[:50])
    lender.become("a", limit=78 + 256)
    assert its.pages() == 78 + 256


def test_a_limit_goes_on_with_the_next_lender(one, lend):
    lender, a, _, its = one
    a.give(GIVEN[:50])
    lender.become("a", limit=78)
    lender.kill()
    second = lend(1, *STRICT, folder=lender.folder)
    # Of its frames it has enough for both.
    second.become("a", limit=ALL, overhead=0)
    a.take(GIVEN[:10])
    used(a, DEFLATE, 1)
    assert its.pages() == ALL
    second.demand("remove a")
    assert os.readlink(f"{lender.folder}/=b").endswith(" none") and not os.path.lexists(
        f"{lender.folder}/=a"
    )


def test_a_writer_that_ends_is_begun_anew(one):
    """After half a second, as one may end each time."""
    lender, a, _, its = one
    writer, begin = writer_of(lender, "a"), time.monotonic()
    os.kill(writer, 9)
    eventually(lambda: writer_of(lender, "a") != writer)
    assert time.monotonic() - begin >= 0.5
    a.give(GIVEN[:50])
    lender.become("a", limit=78, limit_failures=1)
    assert its.pages() == 78
    assert (
        f"a: its limit {its.term} can't be set to {ALL * 4} KiB: its writer has ended"
        in lender.said()
    )


def test_a_writer_that_has_ended_before_it_is_asked_is_named(one):
    lender, a, _, its = one
    stop(lender.process.pid)
    os.kill(writer_of(lender, "a"), 9)
    a.give(GIVEN[:50])
    go_on(lender.process.pid)
    lender.become("a", limit=78)
    assert its.pages() == 78
    assert sum(f"a: its limit {its.term} can't be set to " in it for it in lender.said()) == 1


def test_a_limit_that_cannot_be_written_is_named(one):
    """A guest has nothing before its limit is raised; the next try finds it."""
    lender, a, _, its = one
    a.give(GIVEN[:50])
    lender.become("a", limit=78)
    its.end()
    lender.set_budget(ALL + 88)
    a.take(GIVEN[:10])
    eventually(lambda: lender.guests()["a"]["limit_failures"] >= 2)
    assert a.client.used(DEFLATE)[0] == 0
    said = [
        it for it in lender.said() if f"its limit {its.term} can't be set to {88 * 4} KiB: " in it
    ]
    assert said, lender.said()
    its.make() if isinstance(its, Cgroup) else its.mount()
    used(a, DEFLATE, 1)
    assert its.pages() == 88


def test_a_guest_cannot_pass_its_limit(lend, come, tmp_path):
    """Pages that it gave are out of its reach until they are lent to it again."""
    lender, its = lend(1, *STRICT), Mount(f"{tmp_path}/a")
    lender.demand(f"add a overhead=0 limit={its.term}")
    try:
        guest = come(lender, "a", {FREE: 100}, folder=its.path)
        guest.fill()
        lender.become("a", limit=ALL, held_kib=4 * ALL)
        lender.set_budget(78)
        guest.give(GIVEN[:50])
        lender.become("a", limit=78, held_kib=4 * 78)
        address = GIVEN[0] * PAGE
        with pytest.raises(OSError) as refused:
            guest.client.write(address, b"x")
        assert refused.value.errno == errno.ENOSPC
        lender.set_budget(ALL)
        guest.take(GIVEN[:1])
        used(guest, DEFLATE, 1)
        guest.client.write(address, b"x")
        assert guest.client.read(address, 1) == b"x"
        guest.leave()
    finally:
        its.end()


def test_who_takes_pages_unasked_is_named(lend, come):
    """It has no limit: its balloon doesn't count any longer, and the others are asked for what is
    missing."""
    lender = lend(1, "--floor", "0", "--period", "100", "--step", "0")
    guests = [come(lender, it, {FREE: 100}, "overhead=0") for it in "abc"]
    for it in guests:
        it.fill()
    lender.become("a", target=64), lender.become("b", target=64), lender.become("c", target=0)
    guests[0].give(GIVEN[:64])
    lender.become("a", ballooned=64, lent=64, held_kib=4 * 64, cooperates=1)
    guests[0].fill()
    lender.become("a", held_kib=4 * ALL, cooperates=0, lent=ALL, spare=0, target=0)
    lender.become("b", target=64), lender.become("c", target=64)
    assert (
        "a: has taken 64 pages unasked: all its memory counts as lent from now on" in lender.said()
    )
    time.sleep(0.5)
    assert sum("unasked" in it for it in lender.said()) == 1


NO_LIMIT, NO_PATH = (
    "none, cgroup:PATH or tmpfs:MOUNT",
    "a path from / on, without ., .. or a slash too many",
)
# What is a cgroup that has no limit of memory, by the version.
NO_MEMORY = {
    FIRST: ("limit=cgroup:/sys/fs/cgroup/cpu", "no cgroup of memory"),
    SECOND: (f"limit=cgroup:{SECOND}", "a cgroup without a limit of memory"),
    None: ("limit=cgroup:/", "no cgroup of memory"),
}
# What is said of a path below a file, by whether cgroups are there.
NO_FOLDER = ("no cgroup of memory", "Not a directory")
NO_WORDS = "a path of 151 bytes at most, each of them a letter, a digit or a sign of ASCII"
REFUSED = (
    ("limit=/x", NO_LIMIT),
    ("limit=tmpfs:x", NO_PATH),
    ("limit=tmpfs:/x/../y", NO_PATH),
    ("limit=tmpfs:/x/./y", NO_PATH),
    ("limit=cgroup:/x/", NO_PATH),
    *((f"limit=tmpfs:/{it}", NO_WORDS) for it in (151 * "x", "a\x7f", "\x1f")),
    ("limit=cgroup:/etc", "no cgroup of memory"),
    ("limit=cgroup:/proc/self", "no cgroup of memory"),
    NO_MEMORY[cgroups()],
    (f"limit=cgroup:{cgroups() or '/proc'}/cgroup.procs/x", NO_FOLDER[cgroups() is not None]),
    ("limit=tmpfs:/etc", "no mount of tmpfs"),
    ("limit=tmpfs:/dev/shm/x", "no mount of tmpfs"),
    # A name may begin with dots.
    *((f"limit=tmpfs:/dev/{it}/x", "no mount of tmpfs") for it in (".x", "..x", "...")),
    *((f"limit=tmpfs:/{it}", "no mount of tmpfs") for it in (150 * "x", "!~")),
    (
        "strict=0 limit=tmpfs:/dev/shm",
        "a limit is for a strict guest, whose deflates wait until it is raised",
    ),
)


def test_a_path_with_a_blank_is_no_limit(lend):
    """Lines have a blank before each term."""
    lender = lend(1, *STRICT)
    with Connection(f"{lender.folder}/.control") as control:
        with pytest.raises(Refused, match=NO_WORDS):
            control.ask("add", name="a", limit="tmpfs:/a b")
    assert not lender.guests()


@pytest.mark.parametrize("terms, why", REFUSED)
def test_what_is_no_limit_is_refused(lend, terms, why):
    lender = lend(1, *STRICT)
    assert lender.ask(f"add a {terms}").endswith(f": {why}")
    lender.demand("add a")
    assert lender.ask(f"terms a {terms}") == f"error: {why}"
    assert lender.guests()["a"]["overhead"] == 64 * 256
    assert os.readlink(f"{lender.folder}/=a").endswith(f" 16384 {ANY} {ANY} {ANY} 1 0 none")


def test_a_limit_is_one_guests(lend, limits):
    lender, its = lend(1, *STRICT), limits("a")
    lender.demand(f"add a limit={its.term}"), lender.demand(
        f"terms a limit={its.term}"
    ), lender.demand("add b")
    for line in (f"terms b limit={its.term}", f"add c limit={its.term}"):
        assert "the limit is another guest's" in lender.ask(line)
    if isinstance(its, Cgroup):
        assert "the limit is another guest's" in lender.ask(f"terms b limit={its.term}/below")
        assert "the limit is another guest's" in lender.ask(f"terms b limit=cgroup:{its.above}")
    else:
        os.makedirs(f"{its.path}-again")
        run("mount", "--bind", its.path, f"{its.path}-again")
        try:
            assert "the limit is another guest's" in lender.ask(f"terms b limit={its.term}-again")
        finally:
            run("umount", f"{its.path}-again")
    lender.demand("terms a limit=none"), lender.demand(f"terms b limit={its.term}")


def test_a_tmpfs_within_another_one_is_a_limit_of_its_own(lend, tmp_path):
    lender, outer = lend(1, *STRICT), Mount(f"{tmp_path}/outer")
    inner = Mount(f"{outer.path}/inner")
    try:
        lender.demand(f"add a limit={outer.term}"), lender.demand(f"add b limit={inner.term}")
    finally:
        inner.end(), outer.end()


def test_of_two_mounts_at_one_place_the_later_one_counts(lend, tmp_path):
    lender, its = lend(1, *STRICT), Mount(f"{tmp_path}/a")
    try:
        run("mount", "-t", "ramfs", "covers", its.path)
        assert lender.ask(f"add a limit={its.term}").endswith(": no mount of tmpfs")
        cover = Mount(its.path)
        lender.demand(f"add a limit={its.term}")
        cover.end(), run("umount", its.path)
        lender.demand(f"terms a limit={its.term}")
    finally:
        while os.path.ismount(its.path):
            its.end()


def answer_of_a_writer(lender, kind, path, pages):
    """Has the program of a lender write a limit, as a lender does; returns the errno."""
    ours, its = socket.socketpair(socket.AF_UNIX, socket.SOCK_SEQPACKET)
    writer = begin_writer(lender.process.args[0], its)
    its.close()
    ours.send(struct.pack("<QQI152s4x", 7, pages * PAGE, kind, path.encode()))
    number, code = struct.unpack("<Qi", ours.recv(4096)[:12])
    ours.close()
    assert (number, writer.wait(PATIENCE)) == (7, 0)
    return code


def test_a_cgroup_of_the_second_version(lend, tmp_path):
    """By a folder that is made as one, since this machine may have none."""
    lender = lend(1, *STRICT)
    (tmp_path / "memory.max").write_text("max\n")
    assert answer_of_a_writer(lender, 1, str(tmp_path), 78) == 0
    assert (tmp_path / "memory.max").read_text() == f"{78 * PAGE}"
    assert answer_of_a_writer(lender, 1, f"{tmp_path}/none", 78) == errno.ENOENT
    (tmp_path / "link").mkdir()
    (tmp_path / "link/memory.max").symlink_to(tmp_path / "memory.max")
    assert answer_of_a_writer(lender, 1, f"{tmp_path}/link", 79) == errno.ELOOP
    assert answer_of_a_writer(lender, 2, str(tmp_path), 78) == errno.EINVAL
