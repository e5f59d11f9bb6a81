"""Tests of a Linux guest that migrates with its balloon: its bytes are right, and neither host
holds more than before."""

import time

import pytest
from linux_packages import Fault
from migrate_demands import (
    HARDLY,
    LARGE,
    MORE,
    SLOWLY,
    SMALL,
    demand_held,
    demand_obeys,
    demand_right,
    demand_twice,
    demand_whole,
    with_balloon,
)
from waiting import eventually

# What a busy guest does meanwhile, and the MiB that it may take for that.
BUSY, BUSY_MIB = "for i in $(seq 60); do fill busy 4 && drop busy; done", 16

# MiB of a file whose pages were sent before they go into the balloon.
DROPPED = 40


def test_an_idle_guest(pair):
    pair = pair()
    sums, before = with_balloon(pair), pair.source.held_mib()
    pair.migrate()
    demand_held(pair, before)
    assert pair.destination.size_mib() == SMALL
    demand_right(pair.destination, sums)
    demand_obeys(pair.destination)
    demand_right(pair.destination, sums)


def test_a_busy_guest(pair):
    """It writes and drops files, and its target moves, while it migrates slowly."""
    pair = pair()
    sums, before = with_balloon(pair), pair.source.held_mib()
    pair.source.guest.begin(BUSY)
    pair.begin(**{"max-bandwidth": SLOWLY})
    for turn in range(8):
        pair.source.set_size(SMALL + 8 * (turn % 2))
        time.sleep(0.25)
    pair.source.set_size(SMALL)
    pair.arrive()
    side = pair.destination
    assert side.guest.end(BUSY)[0] == 0
    side.settle()
    demand_held(pair, before + BUSY_MIB)
    assert side.size_mib() == SMALL
    demand_right(side, sums)


def test_pages_that_were_sent_before_they_were_given_up(pair):
    """They are zeros at the destination, too: of a page that its driver has reported the guest may
    suppose that."""
    pair = pair()
    sums = with_balloon(pair, LARGE)
    pair.source.guest.do(f"fill dropped {DROPPED}")
    before = pair.source.held_mib()
    pair.begin(**{"max-bandwidth": SLOWLY})
    eventually(lambda: pair.sent_mib() > before / 2)
    pair.hurry(HARDLY)
    pair.source.guest.do("drop dropped")
    pair.source.set_size(SMALL)
    pair.source.settle()
    pair.hurry()
    pair.arrive()
    demand_held(pair, before)
    assert pair.destination.held_mib() <= MORE * pair.source.held_mib()
    demand_right(pair.destination, sums)


def test_a_large_ring_that_the_device_alone_writes(pair):
    """The used ring of 1024 entries is on pages of its own: without the log they would be old at
    the destination, and the driver would wait for good."""
    pair = pair(queue_size=1024)
    sums = with_balloon(pair)
    pair.begin(**{"max-bandwidth": HARDLY})
    for turn in range(4):
        pair.source.set_size(SMALL + 16 * (turn % 2))
        pair.source.settle()
    pair.source.set_size(SMALL)
    pair.hurry()
    pair.arrive()
    pair.destination.settle()
    demand_obeys(pair.destination)
    demand_right(pair.destination, sums)


def test_twice_in_a_row(pair):
    pair = pair()
    sums, before = with_balloon(pair), pair.source.held_mib()
    demand_twice(pair, sums, before)
    demand_obeys(pair.source)


def test_postcopy_is_refused(pair):
    pair = pair()
    with pytest.raises(Fault, match="not capable of postcopy"):
        pair.destination.can("postcopy-ram")
    sums = with_balloon(pair)
    pair.migrate()
    demand_right(pair.destination, sums)


def test_a_guest_that_is_saved(pair):
    """It is loaded over memory that was written since, and is what it was."""
    side = (pair := pair()).source
    sums, before = with_balloon(pair), side.held_mib()
    side.add_snapshots()
    side.qmp.do("stop")
    side.snapshot("snapshot-save")
    assert side.held_mib() <= MORE * before
    saved = side.memory()
    side.qmp.do("cont")
    side.set_size(LARGE)
    side.settle()
    side.guest.do(f"fill other {DROPPED}")
    side.qmp.do("stop")
    side.snapshot("snapshot-load")
    assert side.memory() == saved
    side.qmp.do("cont")
    demand_whole(side, sums, before)
