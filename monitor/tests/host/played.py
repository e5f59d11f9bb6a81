"""A guest's process that a test plays: it tells the lender what the test wants, and notes what it
is told."""

import ctypes
import os
import signal
import socket
import threading

from aside import keep_alone
from tenants import eventually

PAGES_PER_KIB = 4

# What a lender and a process say to each other (monitor/backends/channel/message.h), which stays
# from version to version.
VERSION, ORDER_LOOK, ORDER_REMIND, ORDER_TARGET, ORDER_ADMIT = 1, 1, 2, 3, 4
ORDER_GRANT, ORDER_LEAVE = 7, 8
TELL_REPORT, TELL_REFUSED, TELL_REMARK, TELL_GONE, WAIT_ROOM, WAIT_RESET = 9, 10, 11, 12, 1, 2
HAS_STARTED_SMALL = 3
COUNTERS, FIGURES, WORDS = 19, 16, 256
MIGRATION_AT = 32  # among the words of a report, after its process's version
NUMBERS = (
    "pages",
    "wanted",
    "wait",
    "holds",
    "held_pages",
    "held_wait",
    "waits",
    "target",
    "actual",
    "ballooned",
    "status",
    "ready",
    "obeyed",
    "asked",
    "ballooned_then",
    "taken_since",
    "has_terms",
    "figure_count",
    "least",
    "most",
    "priority",
    "strict",
)


class Figure(ctypes.Structure):
    _fields_ = [("tag", ctypes.c_uint16), ("value", ctypes.c_uint64)]


class Message(ctypes.Structure):
    """A message of either."""

    _fields_ = [
        *((it, ctypes.c_uint32) for it in ("version", "kind")),
        *((it, ctypes.c_uint64) for it in ("number", "serial", "held_kib", "end", "lost")),
        *((it, ctypes.c_uint32) for it in NUMBERS),
        ("counters", ctypes.c_uint64 * COUNTERS),
        ("figures", Figure * FIGURES),
        ("words", ctypes.c_char * WORDS),
    ]

    @property
    def outside(self):
        """What is outside of its slots: in a report without terms, in place of their first."""
        return self.least

    @outside.setter
    def outside(self, pages):
        self.least = pages

    @property
    def asks(self):
        """Whether an order to look is to ask for statistics: in place of a report's `obeyed`."""
        return self.obeyed

    @property
    def migration(self):
        """Whether its guest migrates: after the version, in a report."""
        return bytes(self)[Message.words.offset + MIGRATION_AT]

    @migration.setter
    def migration(self, number):
        at = ctypes.addressof(self) + Message.words.offset + MIGRATION_AT
        ctypes.memmove(at, number.to_bytes(4, "little"), 4)


class Listens:
    """The socket where a lender finds a guest's process. Another process listens there, of this
    user: that is the one which the lender knows."""

    def __init__(self, folder, name, user=None):
        self.socket = socket.socket(socket.AF_UNIX, socket.SOCK_SEQPACKET)
        os.makedirs(f"{folder}/.channels", 0o700, exist_ok=True)
        self.socket.bind(f"{folder}/.channels/{name}")
        reads, writes = os.pipe()
        self.child = os.fork()
        if self.child == 0:
            self.listen(writes, user)
        os.close(writes)
        assert os.read(reads, 1) == b"!", "nobody listens"
        os.close(reads)

    def listen(self, writes, user):
        """Listens as this user, says so, and waits."""
        try:
            keep_alone({0, 1, 2, writes, self.socket.fileno()})
            if user is not None:
                os.setresuid(user, user, user)
            self.socket.listen()
            os.write(writes, b"!")
            signal.pause()
        finally:
            os._exit(1)

    def accept(self):
        """Returns the lender's end."""
        channel, _ = self.socket.accept()
        self.socket.close()
        return channel

    def end(self):
        """Ends the process that listens."""
        os.kill(self.child, signal.SIGKILL)
        os.waitpid(self.child, 0)


class Played(threading.Thread):
    """The process of a strict guest, which an earlier lender might have started; these numbers are
    in its first report. Its reports have a target once it has heard that, where `hears` says so. It
    `listens` already where its lender finds it as that begins.
    """

    def __init__(self, lender, name, hears=False, listens=None, **its):
        super().__init__(daemon=True)
        self.hears = hears
        self.lender, self.name_of, self.its = lender, name, {"holds": 1, "ready": 1, **its}
        self.granted, self.admitted, self.told_to_leave = 0, 0, 0
        self.targets, self.lock = [], threading.Lock()
        self.listens = listens or Listens(lender.folder, name)
        if not listens:
            lender.demand(f"add {name} strict=1")
        self.channel = self.listens.accept()
        self.start()
        self.report()
        if "pages" in its:
            lender.become(name, pages=its["pages"])

    def report(self, number=0, **changed):
        """Reports, with what has changed."""
        with self.lock:
            self.its |= changed
            held = self.its.get("pages", 0) - self.its.get("ballooned", 0)
            message = Message(
                version=VERSION,
                kind=TELL_REPORT,
                number=number,
                **{"held_kib": held * PAGES_PER_KIB, **self.its},
            )
            self.channel.send(bytes(message))

    def say(self, kind, words=b""):
        """Says something that is no report."""
        self.channel.send(bytes(Message(version=VERSION, kind=kind, words=words)))

    def run(self):
        """Obeys until it ends."""
        try:
            while got := self.channel.recv(ctypes.sizeof(Message)):
                self.obey(Message.from_buffer_copy(got))
        except OSError:
            pass

    def obey(self, order):
        """Notes what it is told, and answers each look by a report."""
        if order.kind == ORDER_LOOK:
            self.report(order.number)
        if order.kind == ORDER_TARGET:
            self.targets.append(order.target)
        if order.kind == ORDER_TARGET and self.hears:
            self.its["target"] = order.target
        if order.kind == ORDER_GRANT:
            self.granted = order.wait
        if order.kind == ORDER_ADMIT:
            self.admitted = order.wait
        self.told_to_leave += order.kind == ORDER_LEAVE

    def deflates(self, pages):
        """Holds a deflate."""
        self.report(held_pages=pages, held_wait=self.its.get("held_wait", 0) + 1)

    def is_granted(self):
        """Whether the deflate that it holds is granted."""
        return self.granted == self.its["held_wait"]

    def deflated(self):
        """Waits for the grant of the deflate that it holds, and gives it back."""
        eventually(self.is_granted, lambda: f"{self.its} isn't granted: {self.lender.guests()}")
        self.report(ballooned=self.its["ballooned"] - self.its["held_pages"], held_pages=0)

    def leave(self):
        """Ends."""
        self.listens.end()
        self.channel.shutdown(socket.SHUT_RDWR)
        self.join()
        self.channel.close()
