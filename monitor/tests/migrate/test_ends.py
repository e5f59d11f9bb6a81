"""Tests of a migration that doesn't come to its end, and of backends that go, or that come late:
the guest continues where it was, with its balloon."""

import os
import signal
from threading import Thread

import linux_kit
from linux_migrated import Side
from linux_packages import Fault
from linux_vmms import Shape
from migrate_demands import (
    HARDLY,
    SLOWLY,
    SMALL,
    demand_held,
    demand_obeys,
    demand_right,
    demand_whole,
    with_balloon,
)
from waiting import eventually

# Messages with which a device is made, or its driver begins or ends: at least, and at most.
FEWEST, MOST_MADE = 8, 64


def kill(process):
    """Ends a process at once."""
    os.kill(process.pid, signal.SIGKILL)


def test_a_migration_that_is_cancelled(pair):
    """The next one is right."""
    pair = pair()
    sums, before = with_balloon(pair), pair.source.held_mib()
    pair.begin(**{"max-bandwidth": HARDLY})
    eventually(lambda: pair.sent_mib() > 1)
    pair.source.qmp.do("migrate_cancel")
    pair.end("cancelled")
    demand_whole(pair.source, sums, before)
    before = pair.source.held_mib()
    pair.renew()
    pair.migrate(**{"max-bandwidth": 0})
    demand_held(pair, before)
    demand_right(pair.destination, sums)


def test_a_destination_that_ends(pair):
    pair = pair()
    sums, before = with_balloon(pair), pair.source.held_mib()
    pair.begin(**{"max-bandwidth": HARDLY})
    eventually(lambda: pair.sent_mib() > 1)
    kill(pair.destination.guest.process)
    pair.end("failed")
    demand_whole(pair.source, sums, before)


def test_a_destination_s_backend_that_ends(pair):
    pair = pair()
    sums, before = with_balloon(pair), pair.source.held_mib()
    pair.begin(**{"max-bandwidth": SLOWLY})
    kill(pair.destination.backend.process)
    pair.end("failed")
    demand_whole(pair.source, sums, before)


def test_a_source_s_backend_that_is_restarted(pair):
    """Its log begins again, and the guest arrives with its balloon."""
    pair = pair()
    sums, before = with_balloon(pair), pair.source.held_mib()
    pair.begin(**{"max-bandwidth": HARDLY})
    eventually(lambda: pair.sent_mib() > 1)
    pair.source.stop()
    pair.source.start()
    pair.source.settle()
    pair.hurry()
    pair.arrive()
    demand_held(pair, before)
    assert pair.destination.size_mib() == SMALL
    demand_right(pair.destination, sums)
    demand_obeys(pair.destination)


def test_a_source_s_backend_that_has_gone(pair):
    """Without a backend there is no device to be saved: the migration fails, and the guest
    continues with the next backend."""
    pair = pair()
    sums, before = with_balloon(pair), pair.source.held_mib()
    pair.begin(**{"max-bandwidth": HARDLY})
    eventually(lambda: pair.sent_mib() > 1)
    pair.source.stop()
    pair.hurry()
    pair.end("failed")
    pair.source.start()
    demand_whole(pair.source, sums, before)


def test_a_backend_that_is_killed(pair):
    """QEMU says what it knew of the balloon meanwhile, and another backend continues with it."""
    pair = pair()
    sums, side = with_balloon(pair), pair.source
    before = side.held_mib()
    side.stop()
    assert side.size_mib() == SMALL
    side.start()
    side.settle()
    assert (side.counter("actual"), side.counter("target")) == (SMALL << 8, SMALL << 8)
    demand_whole(side, sums, before)
    before = side.held_mib()
    pair.migrate()
    demand_held(pair, before)
    demand_right(pair.destination, sums)


def test_a_target_while_there_is_no_backend(pair):
    """The next backend is told it."""
    pair = pair()
    sums, side = with_balloon(pair), pair.source
    side.stop()
    side.set_size(SMALL + 16)
    side.start()
    side.settle()
    assert side.size_mib() == SMALL + 16
    demand_right(side, sums)


class Late(Side):
    """Its backend begins once QEMU has looked for it in vain."""

    def begin(self):
        """Has the backend begin later."""
        Thread(target=self.begin_later, daemon=True).start()

    def begin_later(self):
        """Waits until QEMU says that it has found nobody, and starts the backend."""
        log = os.path.join(self.folder, "guest.log")
        read = lambda: open(log, encoding="latin-1").read() if os.path.exists(log) else ""
        eventually(lambda: "Unable to connect" in read())
        self.backend = super().begin()


def test_a_backend_that_comes_late(vmm, tmp_path):
    """QEMU waits for it as it begins, and looks for it again."""
    shape = Shape(256, queues=5, queue_size=128)
    program = linux_kit.built("checked/vhost_user_balloon")
    side = Late(vmm, program, tmp_path, shape, incoming=True)
    assert side.size_mib() == 256
    side.close()


def test_a_backend_that_goes_as_the_device_is_made(bare):
    """At whatever message: QEMU refuses the device, and makes it with the next backend."""
    qemu, between = bare()
    for message in range(MOST_MADE):
        between.cut(message)
        try:
            qemu.plug(between.path)
        except Fault as fault:
            assert "QEMU says {" in str(fault), (message, fault, qemu.why())
        else:
            break
    assert message > FEWEST, message
    qemu.qmp.do("query-status")


def test_a_backend_that_goes_as_the_device_is_unplugged(bare):
    """QEMU doesn't look at the device once it is gone."""
    qemu, between = bare()
    qemu.plug(between.path, **{"reconnect-ms": 20}), qemu.drive()
    between.cut(0)
    qemu.unplug(qemu.to_read_target())
    qemu.qmp.do("query-status")


def test_a_backend_that_goes_as_its_driver_begins_or_ends(bare):
    """At whatever message: QEMU continues, and the queues run with the next backend. What QEMU has
    sent is read once it has its next answer."""
    qemu, between = bare()
    qemu.plug(between.path, **{"reconnect-ms": 20})
    for before, act in ((qemu.reset, qemu.drive), (qemu.drive, qemu.reset)):
        between.cut(None)
        for message in range(MOST_MADE):
            before()
            between.cut(message)
            act(), qemu.target()
            if between.left is not None:
                break
            qemu.drive()
            eventually(between.runs, qemu.why)
        assert message > FEWEST, message
