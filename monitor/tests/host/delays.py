"""What a host delays a guest at work by. The guest's rounds are made by a process of their own. Of
the time that each took, the time is taken away in which the guest or the process that serves it was
ready to run, and other programs had the processors (/proc/PID/schedstat), or other machines had
them (/proc/stat). Both have one processor: one that wakes the other on another processor, which
other machines have at that moment, waits for it uncounted. So a delay that a host makes, by work
for another guest or by a call that blocks, shows on a machine that is busy, too."""

import contextlib
import os
import random
import select
import time

from aside import Aside
from vhost_client import INFLATE, PAGE, REGIONS
from waiting import PATIENCE

# Milliseconds by which a host may delay a round, seconds of rounds, and rounds before them, in
# which what they take is loaded.
MOST_DELAY, SECONDS, FIRST_ROUNDS = 5, 3, 20

# The page that each request names.
GIVEN = REGIONS[1][0] // PAGE

# Milliseconds of a tick, in which the kernel counts what other machines took, and the seconds after
# which it has done so.
TICK, COUNTED = 1000 / os.sysconf("SC_CLK_TCK"), 0.03


def stolen():
    """Returns the milliseconds that other machines took of the processors."""
    with open("/proc/stat", encoding="ascii") as lines:
        return int(lines.readline().split()[8]) * TICK


def without_processor(file):
    """Returns the milliseconds for which a thread was ready to run and had no processor, by its
    open schedstat."""
    return int(os.pread(file, 100, 0).split()[1]) / 1e6


def delay_of(client, files, limit):
    """Has a request served; returns the milliseconds that it took, but for those without a
    processor."""
    taken, waited, begin = stolen(), sum(map(without_processor, files)), time.monotonic()
    client.post_pages(INFLATE, [GIVEN])
    while client.told(limit) != INFLATE:
        pass
    took = (time.monotonic() - begin) * 1000 - (sum(map(without_processor, files)) - waited)
    if took < MOST_DELAY:
        return took
    time.sleep(COUNTED)
    taken = stolen() - taken
    return took - taken - TICK if taken > 0 else took


@contextlib.contextmanager
def one_processor(process):
    """Has this process and another one the same processor meanwhile."""
    before = os.sched_getaffinity(process)
    one = {random.choice(sorted(before))}
    os.sched_setaffinity(0, one), os.sched_setaffinity(process, one)
    yield
    os.sched_setaffinity(process, before)


def longest_delay(client, process, seconds, ended, begins):
    """Has a client's requests served one after the other by this process, for so long, or until a
    file can be read; returns the milliseconds of the longest delay, and how many requests its queue
    has had."""
    with one_processor(process), open(f"/proc/{process}/schedstat", "rb") as its, open(
        "/proc/thread-self/schedstat", "rb"
    ) as own:
        files, longest = (its.fileno(), own.fileno()), 0.0
        for _ in range(FIRST_ROUNDS):
            delay_of(client, files, PATIENCE)
        end = seconds and time.monotonic() + seconds
        begins()
        while time.monotonic() < end if end else not select.select([ended], [], [], 0)[0]:
            longest = max(longest, delay_of(client, files, PATIENCE))
    return longest, client.available[INFLATE]


def delay_beside(act, client, process, seconds=SECONDS):
    """Returns the milliseconds by which a client's rounds were delayed at most, while something was
    done that is given their end. They last as long as that where no number of seconds is given."""
    ended = os.eventfd(0, os.EFD_CLOEXEC)
    files = (client.socket.fileno(), client.own.fileno(), *client.files, ended)
    rounds = Aside(lambda begins: longest_delay(client, process, seconds, ended, begins), files)
    try:
        act(rounds)
    finally:
        os.eventfd_write(ended, 1)
        longest, client.available[INFLATE] = rounds.numbers()
        os.close(ended)
    return longest
