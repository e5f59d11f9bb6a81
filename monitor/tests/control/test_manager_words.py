"""What a service manager is told of a host at work: that it lives, and what there is."""

import threading
import time

import pytest
from hosts import Answering
from test_service import manager
from vhost_client import PAGE, Client
from waiting import PATIENCE, eventually

__all__ = ("manager",)

# Microseconds of a watchdog, which is told of each half of them; bytes of a guest's memory.
WATCHDOG, GUEST = 400000, 128 * PAGE

# A host that looks at its guests once a minute.
SELDOM = ("--period", "60000")


def test_a_watchdog_hears_of_a_host_for_which_nothing_is_due(program, folder, manager):
    host = manager.start(
        program, folder, str(folder), "--budget", "480", *SELDOM, watchdog=WATCHDOG
    )
    manager.until("WATCHDOG")
    begin = time.monotonic()
    for _ in range(5):
        manager.until("WATCHDOG")
    assert 0.6 < time.monotonic() - begin < PATIENCE
    assert host.end() == 0


def test_a_host_that_does_not_start_is_not_ready(program, folder, manager):
    """As it can't read what the machine leaves, which it looks at last."""
    words = (str(folder), "--budget", "480", "--keep", "10", "--machine", str(folder))
    host = manager.start(program, folder, *words)
    assert host.process.wait(PATIENCE) == 2
    manager.socket.setblocking(False)
    with pytest.raises(BlockingIOError):
        manager.until("READY")
    host.end()


def test_a_manager_is_told_of_guests_their_memory_and_waits(program, folder, manager):
    """In whole MiB: each of three guests holds half of one; so does one for which there is no
    room."""
    words = (str(folder), "--budget", "2", "--floor", "0", "--strict")
    host = manager.start(program, folder, *words, watchdog=WATCHDOG)
    manager.until("READY")
    for name in "abcde":
        host.ask("add", name=name)
    guests, comes = [Answering(host, it) for it in "abc"], Client(f"{host.folder}/e")
    host.ask("budget", bytes=4 * GUEST - PAGE)
    comes.negotiate()
    waits = threading.Thread(target=comes.hand_over_memory)
    waits.start()
    wanted = "5 guests, 2 of 1 MiB held, 1 wait"
    eventually(lambda: manager.until("STATUS")["STATUS"] == wanted)
    host.ask("budget", bytes=4 * GUEST)
    waits.join(PATIENCE)
    assert not waits.is_alive()
    for it in (*guests, comes):
        it.leave()
    assert host.end() == 0
