"""What a guest holds counts, whatever it does meanwhile."""

import ctypes
import fcntl
import os
import signal
import struct
import subprocess
import time

import pytest
from host_places import ramfs
from tenants import FREE, PAGES, PAGES_OF_ALL, eventually, process_of
from test_strict import GIVEN, STRICT, Later, used
from vhost_client import DEFLATE, INFLATE, PAGE, PAGES_OF_REGION, REGIONS, SET_MEM_TABLE, Client

# Pages of a guest, and of it once it has given 50; the seconds in which a lender has looked at it.
ALL, LEFT, LOOKED = 128, 78, 1


def test_a_guest_whose_queues_are_stopped_counts_with_what_it_holds(lend, come):
    lender = lend(1, *STRICT)
    a = come(lender, "a", {FREE: 100}, "overhead=0")
    lender.set_budget(LEFT)
    a.give(GIVEN[:50])
    lender.become("a", lent=LEFT)
    with a.lock:
        for number in range(4):
            a.client.stop_ring(number)
    lender.become("a", ready=0)
    a.fill()
    lender.become("a", held_kib=4 * ALL)
    time.sleep(LOOKED)
    assert lender.guests()["a"]["lent"] == ALL


# A seal that has discards fail (fcntl(2)).
FUTURE_WRITE = 0x10


class Sealing(Client):
    """A client whose second region may be sealed."""

    def hand_over_memory(self):
        flags = os.MFD_CLOEXEC | os.MFD_ALLOW_SEALING
        self.replace(1, os.memfd_create("region", flags))
        super().hand_over_memory()


def test_what_cannot_be_discarded_stays_lent(lend, come):
    lender = lend(1, *STRICT)
    a = come(lender, "a", {FREE: 100}, "overhead=0", client=Sealing)
    lender.set_budget(ALL - 10)
    a.give(GIVEN[:10])
    lender.become("a", lent=ALL - 10, ballooned=10)
    fcntl.fcntl(a.client.files[1], fcntl.F_ADD_SEALS, FUTURE_WRITE)
    a.give([*range(PAGES, PAGES + 30)])
    lender.become("a", lent=ALL - 10, ballooned=10, target=10)
    lender.set_budget(ALL)
    a.take([*range(PAGES, PAGES + 30)])
    lender.become("a", lent=ALL, ballooned=0)
    a.take(GIVEN[:10])
    used(a, DEFLATE, 2)
    lender.set_budget(ALL - 10)
    a.give(GIVEN[:10])
    lender.become("a", lent=ALL - 10, ballooned=10)
    assert not [it for it in lender.said() if "unasked" in it]


def next_process(lender, lend):
    """Kills a guest's process; another one continues."""
    process = process_of(lender, "a")
    os.kill(process, signal.SIGKILL)
    eventually(lambda: process_of(lender, "a") != process)
    return lender


def next_lender(lender, lend):
    """Kills a lender; another one takes over."""
    lender.kill()
    return lend(1, *STRICT, folder=lender.folder)


@pytest.fixture
def no_discards(tmp_path):
    """A folder whose files' pages can't be discarded."""
    if os.geteuid() != 0:
        pytest.skip("a file system is mounted, which takes root")
    with ramfs(f"{tmp_path}/no-discards") as path:
        yield path


@pytest.mark.parametrize("changes", (next_process, next_lender))
def test_what_cannot_be_discarded_stays_lent_over_a_change(lend, come, changes, no_discards):
    lender = lend(1, *STRICT)
    a = come(lender, "a", {FREE: 100}, "overhead=0", folder=no_discards)
    lender.set_budget(ALL - 40)
    lender.become("a", asked=40)
    a.give(GIVEN[:40])
    used(a, INFLATE, 1)
    lender = changes(lender, lend)
    lender.set_budget(ALL - 40)
    lender.become("a", ready=1, asked=40, target=40)
    time.sleep(LOOKED)
    lender.become("a", lent=ALL, ballooned=0)
    assert not [it for it in lender.said() if "unasked" in it]


# Pages of a file that are in no slot; how fallocate(2) discards pages.
OUTSIDE, PUNCHES_HOLE = 40, 3


class Larger(Client):
    """A client whose second file has more pages than its slot."""

    def fill_outside(self):
        os.posix_fallocate(self.files[1], PAGES_OF_REGION * PAGE, OUTSIDE * PAGE)


class OneFile(Client):
    """A client whose two slots are parts of one file."""

    def start(self, *how):
        self.replace(1, os.dup(self.files[0]))
        super().start(*how)

    def hand_over_memory(self, *pages):
        """Hands over slots with these numbers of pages; both whole without them."""
        pages, size = pages or (PAGES_OF_REGION,) * 2, PAGES_OF_REGION * PAGE
        table = struct.pack("<II", len(pages), 0)
        for number, (its, (guest, user)) in enumerate(zip(pages, REGIONS)):
            table += struct.pack("<QQQQ", guest, its * PAGE, user, number * size)
        self.accepted(SET_MEM_TABLE, table, self.files[: len(pages)])


def named(lender, pages):
    """Waits until a guest is named for pages that it has taken."""
    words = f"a: has taken {pages} pages unasked: all its memory counts as lent from now on"
    eventually(lambda: words in lender.said(), lender.said)


def discard_outside(file, pages=PAGES_OF_REGION, first=PAGES_OF_REGION):
    """Gives up these pages of what a file holds, from the end of its first slot on."""
    place = (ctypes.c_long(it * PAGE) for it in (first, pages))
    assert ctypes.CDLL(None).fallocate(file, PUNCHES_HOLE, *place) == 0


@pytest.mark.parametrize("overhead", (0, 4, OUTSIDE - 1))
def test_what_a_file_holds_outside_of_its_slots_counts(lend, come, overhead):
    lender = lend(1, *STRICT)
    a = come(lender, "a", {FREE: 100}, f"overhead={4 * overhead}K", client=Larger)
    lender.become("a", held_kib=4 * ALL)
    a.client.fill_outside()
    lender.become("a", held_kib=4 * (ALL + OUTSIDE))
    named(lender, OUTSIDE - overhead)
    lender.become("a", lent=ALL + OUTSIDE)
    assert lender.counters()["held_kib"] == 4 * (ALL + OUTSIDE)
    discard_outside(a.client.files[1])
    lender.become("a", lent=ALL, cooperates=0)


def test_what_a_guest_may_hold_beside_its_memory_does_not_count(lend, come):
    lender = lend(1, *STRICT)
    a = come(lender, "a", {FREE: 100}, f"overhead={4 * OUTSIDE}K", client=Larger)
    a.client.fill_outside()
    lender.become("a", held_kib=4 * (ALL + OUTSIDE))
    time.sleep(LOOKED)
    lender.become("a", lent=ALL, cooperates=1)


@pytest.fixture
def disk(tmp_path):
    """A folder on a disk, whose files may be memory."""
    its = subprocess.run(["stat", "-fc%T", tmp_path], capture_output=True, text=True).stdout
    if its.strip() not in ("ext2/ext3", "xfs", "btrfs", "f2fs"):
        pytest.skip(f"{tmp_path} is on {its}")
    return str(tmp_path)


def test_what_a_disk_holds_outside_of_slots_is_no_memory(lend, come, disk):
    lender = lend(1, *STRICT)
    a = come(lender, "a", {FREE: 100}, "overhead=0", client=Larger, folder=disk)
    a.client.fill_outside()
    time.sleep(LOOKED)
    lender.become("a", held_kib=4 * ALL, lent=ALL, cooperates=1)


def test_a_slot_of_a_disk_that_was_removed_holds_no_memory(lend, come, disk):
    lender = lend(1, *STRICT)
    a = come(lender, "a", {FREE: 100}, "overhead=0", client=OneFile, folder=disk)
    lender.become("a", pages=ALL, held_kib=4 * ALL)
    remove_slot(a)
    lender.become("a", pages=PAGES_OF_REGION, lent=PAGES_OF_REGION, cooperates=1)


def hand_over(a, *pages):
    """Has a guest have slots of its file with these numbers of pages."""
    with a.lock:
        a.client.hand_over_memory(*pages)


def remove_slot(a):
    """Takes the second of two slots of one file away from a guest."""
    hand_over(a, PAGES_OF_REGION)


def test_a_guest_that_holds_pages_in_a_removed_slot_is_lent_them(lend, come):
    lender = lend(1, *STRICT)
    lender.set_budget(ALL + PAGES_OF_REGION)
    a = come(lender, "a", {FREE: 100}, client=OneFile)
    lender.become("a", pages=ALL, held_kib=4 * ALL)
    b = Client(lender.add("b"))
    b.negotiate()
    comes = Later(b.hand_over_memory)
    lender.become("b", waits="room")
    remove_slot(a)
    lender.become("a", pages=PAGES_OF_REGION, held_kib=4 * ALL)
    assert comes.waits(LOOKED)
    assert lender.guests()["a"]["lent"] == ALL
    discard_outside(a.client.files[0])
    comes.ends()
    lender.become("a", lent=PAGES_OF_REGION, cooperates=1)
    b.leave()


@pytest.fixture
def full(lend, come):
    """A host whose budget is all lent to a guest that has lost its second slot, and the guest."""
    lender = lend(1, *STRICT)
    lender.set_budget(ALL)
    a = come(lender, "a", {FREE: 100}, "overhead=0", client=OneFile)
    lender.become("a", pages=ALL, held_kib=4 * ALL)
    remove_slot(a)
    lender.become("a", pages=PAGES_OF_REGION, lent=ALL)
    return lender, a


def test_a_slot_that_comes_back_is_lent_already(full):
    """It asks for nothing, and waits for nobody who does."""
    lender, a = full
    b = Client(lender.add("b"))
    b.negotiate()
    comes = Later(b.hand_over_memory)
    lender.become("b", waits="room")
    waits = lambda: lender.status()["host"]["measures"]["waits"]["counts"]
    before = waits()
    hand_over(a)
    lender.become("a", pages=ALL, lent=ALL, cooperates=1, waits="nothing")
    assert comes.waits(LOOKED) and waits() == before
    lender.become("a", pages=ALL, lent=ALL, cooperates=1)
    b.leave()


def test_what_a_removed_slot_holds_counts_as_targets_are_decided(full):
    """It is lent to the guest, which is to give as many pages as are missing."""
    lender, _ = full
    lender.decisions()
    lender.set_budget(ALL - 10)
    lender.become("a", target=10)
    assert [its["a"]["pages"] for _, its in lender.decisions()][-1:] == [ALL]


# Pages of two slots, and those between them: more than the second one has are before it.
FIRST, SECOND = 40, 20
BETWEEN = PAGES_OF_REGION - FIRST


def test_what_a_file_has_between_two_slots_is_outside(full):
    lender, a = full
    hand_over(a, FIRST, SECOND)
    lender.become("a", pages=FIRST + SECOND, lent=ALL)
    discard_outside(a.client.files[0], BETWEEN, FIRST)
    lender.become("a", lent=ALL - BETWEEN, cooperates=1)


# Pages of a slot that comes back, of which the first ones are holes.
COMES_BACK = (
    (PAGES_OF_REGION, 10),
    (PAGES_OF_REGION, PAGES_OF_REGION - 1),
    (PAGES_OF_REGION, PAGES_OF_REGION),
    (32, 32),
    (32, 20),
)


@pytest.mark.parametrize("pages, holes", COMES_BACK)
def test_a_slot_that_comes_back_with_holes_waits_for_these(full, come, pages, holes):
    """What is outside of it stays lent."""
    lender, a = full
    discard_outside(a.client.files[0], holes)
    lender.become("a", lent=ALL - holes)
    lender.set_budget(2 * ALL - 1)
    come(lender, "b", {FREE: 0})
    comes = Later(lambda: hand_over(a, PAGES_OF_REGION, pages))
    lender.become("a", waits="room", lent=ALL - holes)
    assert comes.waits(LOOKED)
    lender.set_budget(2 * ALL)
    comes.ends()
    lender.become("a", pages=PAGES_OF_REGION + pages, lent=ALL, cooperates=1)


@pytest.mark.parametrize("given", (5, 15))
def test_no_more_is_lent_of_a_removed_slot_than_it_has_held(lend, come, given):
    """The file has other pages in no slot, which the guest may hold beside its memory; and of the
    slot some were in its balloon, besides five others. A later lender believes no more."""
    lender, pages = lend(1, *STRICT), ALL - given
    a = come(lender, "a", {FREE: 100}, f"overhead={4 * OUTSIDE}K", client=OneFile)
    os.posix_fallocate(a.client.files[0], ALL * PAGE, OUTSIDE * PAGE)
    lender.set_budget(pages)
    lender.become("a", asked=given)
    a.give([*range(PAGES_OF_ALL + 20, PAGES_OF_ALL + 25), *range(PAGES, PAGES + given - 5)])
    lender.become("a", pages=ALL, lent=pages, held_kib=4 * (pages + OUTSIDE))
    remove_slot(a)
    lender.become("a", pages=PAGES_OF_REGION, lent=pages)
    lender = next_lender(lender, lend)
    lender.set_budget(pages)
    lender.become("a", ready=1, pages=PAGES_OF_REGION, held_kib=4 * (pages + OUTSIDE))
    time.sleep(LOOKED)
    lender.become("a", lent=pages, cooperates=1)


@pytest.mark.parametrize("changes", (next_process, next_lender))
def test_what_a_removed_slot_holds_stays_lent_over_a_change(lend, come, changes):
    lender = lend(1, *STRICT)
    a = come(lender, "a", {FREE: 100}, "overhead=0", client=OneFile)
    lender.become("a", pages=ALL, held_kib=4 * ALL)
    remove_slot(a)
    lender.become("a", pages=PAGES_OF_REGION, lent=ALL)
    lender = changes(lender, lend)
    lender.become("a", ready=1, pages=PAGES_OF_REGION, held_kib=4 * ALL)
    time.sleep(LOOKED)
    lender.become("a", lent=ALL, cooperates=1)


def test_a_request_in_holes_is_not_held(lend, come):
    lender = lend(1, *STRICT)
    a = come(lender, "a", {FREE: 100}, "overhead=0")
    lender.set_budget(LEFT)
    a.give([*range(PAGES, PAGES + 50)])
    lender.become("a", lent=LEFT, held_kib=4 * LEFT)
    with a.lock:
        for page in range(50):
            a.client.describe(INFLATE, 0, (PAGES + page) * PAGE, 4)
            a.client.publish(INFLATE, 0)
            a.client.kick(INFLATE)
    eventually(lambda: a.client.is_all_used(INFLATE), "nothing is used")
    time.sleep(LOOKED)
    assert lender.guests()["a"]["held_kib"] == 4 * LEFT
