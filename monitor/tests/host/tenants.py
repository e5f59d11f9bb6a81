"""A lender for tests, and guests that answer it: clients of 128 pages, which tell what they are set
to."""

import contextlib
import os
import select
import signal
import struct
import subprocess
import threading

import linux_host
from bigvasta.connection import Connection
from vhost_client import BUFFERS, DEFLATE, GET_CONFIG, INFLATE, PAGE, REGIONS, STATISTICS, Client
from waiting import PATIENCE, eventually

# Tags of statistics (VIRTIO 1.1, 5.5.6.3), and the first pages of a client's regions: the first
# region has its rings.
FREE, AVAILABLE = 4, 6
PAGES_OF_ALL, PAGES = (it[0] // PAGE for it in REGIONS)


class Lender(linux_host.Host):
    """A lender in a folder of its own."""

    def is_there(self):
        """Whether it still runs."""
        return self.process.poll() is None

    def become(self, name, **wanted):
        """Waits until a guest has these numbers."""

        def seen():
            return {it: self.guests()[name][it] for it in wanted}

        eventually(
            lambda: seen() == wanted, lambda: f"{name} has {seen()}, and should have {wanted}"
        )

    def set_budget(self, pages):
        """Sets the budget to these pages."""
        with Connection(f"{self.folder}/.control") as it:
            it.ask("budget", bytes=pages * PAGE)

    def reclaim(self, name, client, pages):
        """Has a guest's target be as many pages as its balloon has, and its driver read that."""
        lent = self.guests()[name]["pages"] - pages
        self.become(name, ballooned=pages)
        self.demand(f"{name} target {pages}")
        eventually(lambda: read_target(client) and self.guests()[name]["lent"] == lent)

    def said(self):
        """Returns what it has said on standard error."""
        with open(self.log, encoding="latin-1") as log:
            return log.read().splitlines()

    def tells(self, words):
        """Waits until it has said a line with these words. Those of a guest's process may come
        after what its client is told."""
        eventually(lambda: self.hear() or any(words in it for it in self.said()), self.said)

    def kill(self):
        """Ends it without a word."""
        self.process.kill()
        self.process.wait()
        self.process.stdin.close(), self.process.stdout.close()


def read_target(client):
    """Has a client's driver read its configuration, with its target; returns that."""
    return client.send(GET_CONFIG, struct.pack("<III", 0, 8, 0) + bytes(8))


class Guest(threading.Thread):
    """A guest whose driver answers each question by these figures, and reads its target, as Linux
    does, unless it `reads` none."""

    def __init__(self, lender, name, figures, reads=True, folder=None, client=Client):
        super().__init__(daemon=True)
        self.figures, self.reads, self.lender, self.name_of = dict(figures), reads, lender, name
        self.gone = False
        self.client = client(f"{lender.folder}/{name}", lambda: "", folder)
        self.ended, self.answers, self.lock = threading.Event(), True, threading.Lock()
        self.client.turn = threading.Lock()
        self.client.start()
        self.tell()
        self.start()

    def tell(self):
        """Posts statistics."""
        data = b"".join(
            struct.pack("<HQ", tag, pages * PAGE) for tag, pages in self.figures.items()
        )
        self.client.write(BUFFERS + PAGE, data)
        self.client.describe(STATISTICS, 0, BUFFERS + PAGE, len(data))
        self.client.publish(STATISTICS, 0)
        self.client.kick(STATISTICS)

    def give(self, pages):
        """Puts pages into its balloon."""
        with self.lock:
            self.client.post_pages(INFLATE, pages)

    def give_free(self, pages):
        """Puts free pages into its balloon: from then on it tells that it has fewer of these."""
        with self.lock:
            self.figures[FREE] -= len(pages)
            self.client.post_pages(INFLATE, pages)

    def take(self, pages):
        """Takes pages out of its balloon."""
        with self.lock:
            self.client.post_pages(DEFLATE, pages)

    def answer(self, told):
        """Reads its target once that has changed, and tells its statistics where it is asked:
        another process that takes over may tell of what was used long ago."""
        if told is None and self.reads:
            read_target(self.client)
        if told == STATISTICS and self.answers and self.client.is_all_used(STATISTICS):
            self.tell()

    def run(self):
        """Answers until it goes, or the lender's process closes its socket."""
        try:
            while not self.ended.wait(0.01):
                while select.select([self.client.own], [], [], 0)[0]:
                    with self.lock:
                        self.answer(self.client.told(PATIENCE))
        except (OSError, TypeError, AssertionError, ValueError):
            pass

    def fill(self):
        """Has all its pages held by the host."""
        for file in self.client.files:
            os.posix_fallocate(file, 0, os.fstat(file).st_size)

    def leave(self):
        """Goes, once."""
        if not self.gone:
            self.ended.set()
            self.join()
            self.client.leave()
        self.gone = True


def process_of(lender, name):
    """Returns the number of a guest's process."""
    return eventually(lambda: lender.guests()[name]["process"])


def writer_of(lender, name):
    """Returns the process that writes a guest's limit, by its words."""
    wanted = f"vhost_user_host\0--write-limits\0{lender.folder}/{name}\0".encode()

    def found():
        for number in filter(str.isdigit, os.listdir("/proc")):
            with contextlib.suppress(OSError), open(f"/proc/{number}/cmdline", "rb") as words:
                if words.read() == wanted:
                    return int(number)
        return None

    return eventually(found, f"nobody writes the limit of {name}")


def begin_writer(program, channel, lock=os.devnull):
    """Begins a writer of limits on this channel, whose lock is a file of number 3."""
    words = ["sh", "-c", 'exec "$0" --write-limits test 3< "$1"', program, lock]
    return subprocess.Popen(words, stdin=channel)


def status_of(process):
    """Returns what the kernel says of a process, by names."""
    with open(f"/proc/{process}/status", encoding="ascii") as lines:
        return dict(it.rstrip("\n").split(":\t", 1) for it in lines if ":\t" in it)


def has_ended(process):
    """Whether a process isn't there any longer, or is a zombie."""
    try:
        return status_of(process)["State"].startswith(("Z", "X"))
    except (FileNotFoundError, ProcessLookupError):  # the latter: it ended as it was read
        return True


def stop(process):
    """Has a process stand still."""
    os.kill(process, signal.SIGSTOP)


def go_on(process):
    """Has it go on."""
    os.kill(process, signal.SIGCONT)
