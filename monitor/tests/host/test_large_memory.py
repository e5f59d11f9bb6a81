"""Guests whose memory has huge pages, of which the host has none back before all of it is given."""

import fcntl
import mmap
import os
import struct

import pytest
from tenants import FREE, process_of
from test_held import next_lender, next_process
from test_strict import STRICT, Later, used
from vhost_client import DEFLATE, PAGE, PAGES_OF_REGION, REGIONS, SET_MEM_TABLE, SET_OWNER, Client

# Bytes and pages of a huge page; how many a guest has, where in it, and how large its memory is.
BYTES, LARGE = 1 << 21, 512
COUNT, AT = 2, 1 << 22
FIRST, ALL = AT // PAGE, PAGES_OF_REGION + COUNT * LARGE

# How many huge pages may be made as they are wanted; a memfd that has such (memfd_create(2)).
ROOM, HUGE = "/proc/sys/vm/nr_overcommit_hugepages", 4


@pytest.fixture(autouse=True)
def huge_pages():
    """A machine that makes as many huge pages as a guest has, for one test at a time."""
    if os.geteuid() != 0 or not os.access(ROOM, os.W_OK):
        pytest.skip("huge pages are made, which takes root")
    with open(ROOM, "r+", encoding="ascii") as file:
        fcntl.flock(file, fcntl.LOCK_EX)
        before = file.read()
        file.seek(0), file.write(str(int(before) + COUNT)), file.flush()
        yield
        file.seek(0), file.write(before), file.flush()


class OfLargePages(Client):
    """A client whose second region has huge pages, all of which the host holds."""

    def hand_over_memory(self):
        os.close(self.files[1])
        self.files[1] = os.memfd_create("large", os.MFD_CLOEXEC | HUGE)
        os.ftruncate(self.files[1], COUNT * BYTES)
        self.hold()
        table = struct.pack("<II", 2, 0)
        for (_, user), guest, pages in zip(
            REGIONS, (REGIONS[0][0], AT), (PAGES_OF_REGION, COUNT * LARGE)
        ):
            table += struct.pack("<QQQQ", guest, pages * PAGE, user, 0)
        self.accepted(SET_MEM_TABLE, table, self.files)

    def hold(self):
        """Writes into each huge page."""
        try:
            with mmap.mmap(self.files[1], COUNT * BYTES) as its:
                for at in range(0, COUNT * BYTES, BYTES):
                    its[at] = 1
        except OSError as fault:
            pytest.skip(f"there is no huge page: {fault}")


@pytest.fixture
def given(lend, come):
    """A host and its guest, which has given half of the pages of one huge page and the other one
    whole, and holds no more than it was lent."""
    lender = lend(8, *STRICT)
    a = come(lender, "a", {FREE: 900}, "overhead=0", client=OfLargePages)
    a.give([*range(FIRST, FIRST + 256)])
    a.give([*range(FIRST + LARGE, FIRST + 2 * LARGE - 1)])
    lender.become("a", inflated=256 + LARGE - 1, ballooned=0, held_kib=4 * ALL)
    a.give([FIRST + 2 * LARGE - 1])
    lender.become("a", ballooned=LARGE, held_kib=4 * (ALL - LARGE))
    lender.reclaim("a", a.client, LARGE)
    lender.set_budget(ALL - LARGE)
    return lender, a


@pytest.mark.parametrize("changes", (lambda lender, _: lender, next_process, next_lender))
def test_a_page_of_a_huge_page_that_was_given_waits_for_all_of_it(given, lend, changes):
    """One of another huge page, which the host holds, waits for none."""
    lender, a = given
    a.take([FIRST])
    used(a, DEFLATE, 1)
    a.take([FIRST + LARGE])
    lender.become("a", waits="deflate", lent=ALL - LARGE)
    lender = changes(lender, lend)
    lender.set_budget(ALL - 1)
    lender.become("a", waits="deflate", lent=ALL - LARGE)
    lender.set_budget(ALL)
    used(a, DEFLATE, 2)
    a.client.hold()
    lender.become("a", waits="nothing", ballooned=0, lent=ALL, held_kib=4 * ALL, cooperates=1)
    assert process_of(lender, "a") and not [it for it in lender.said() if "unasked" in it]


def test_a_guest_of_huge_pages_that_restarts_waits_for_what_it_has_given(given):
    lender, a = given
    begins = Later(lambda: a.client.accepted(SET_OWNER))
    lender.become("a", waits="reset", lent=ALL - LARGE)
    assert begins.waits()
    lender.set_budget(ALL)
    begins.ends()
    lender.become("a", ballooned=0, pages=0, cooperates=1)
