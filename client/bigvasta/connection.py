"""A connection to a control socket of a host: requests and answers, and the events of a host that
is followed."""

import json
import os
import socket
import time

from bigvasta.answers import ANSWERS, EVENT, REFUSAL, is_flag, wrong_part
from bigvasta.statuses import Away, Refused, Unclear

VERSION = 1

# The socket by which a host is changed, and the one that only shows it.
CONTROL, STATUS = "/run/bigvasta/.control", "/run/bigvasta-status/socket"

# Seconds in which a host has to answer; and bytes: the most of an answer, and of one read.
LIMIT = 10.0
MOST_ANSWER, MOST_READ = 1 << 22, 1 << 16

# Requests that change nothing; characters of a user's name.
SHOWS, MOST_NAME = ("status", "log", "events", "changes", "config"), 64


def why_not(path, fault):
    """Returns why a socket can't be connected to, and what may be done."""
    if isinstance(fault, PermissionError):
        who = "root and members of bigvasta-status" if path == STATUS else "root"
        return f"its socket is for others ({who}, by the package)"
    return f"is bigvasta-host running? ({fault.strerror or fault})"


def named(request):
    """Returns the field by which a host notes who asks for a change, by the name of who uses this
    program: the kernel tells it the number."""
    if request in SHOWS:
        return {}
    user = os.environ.get("SUDO_USER") or os.environ.get("LOGNAME") or os.environ.get("USER")
    return {"by": user[:MOST_NAME]} if user and user.isascii() else {}


def away(why):
    """Returns what is answered in the place of a host that doesn't answer."""
    return {"version": VERSION, "ok": False, "error": {"code": "away", "text": str(why)}}


class Connection:
    """A connection to a socket of a host."""

    def __init__(self, path, limit=LIMIT):
        self.path, self.limit, self.unread, self.names = path, limit, bytearray(), True
        self.socket = self.reach()

    def reach(self):
        """Returns a socket that is connected to the host."""
        its = None
        try:
            its = socket.socket(socket.AF_UNIX, socket.SOCK_STREAM)
            its.settimeout(self.limit)
            its.connect(self.path)
        except OSError as fault:
            if its:
                its.close()
            raise Away(f"no host answers at {self.path}: {why_not(self.path, fault)}") from None
        return its

    def __enter__(self):
        return self

    def __exit__(self, *_):
        self.close()

    def close(self):
        """Lets go of the host."""
        self.socket.close()

    def unclear(self, words):
        """Returns the fault of an answer."""
        return Unclear(f"{self.path}: {words}")

    def read(self, until):
        """Reads some bytes, until this moment; without one, for as long as it takes."""
        left = until and until - time.monotonic()
        try:
            if left is not None and left <= 0:
                raise TimeoutError
            self.socket.settimeout(left)
            part = self.socket.recv(MOST_READ)
        except TimeoutError:
            raise self.unclear("the host doesn't answer in time") from None
        except OSError as fault:
            raise self.unclear(fault.strerror or fault) from None
        if not part:
            raise self.unclear("the host went away amid an answer")
        self.unread += part

    def line(self, until):
        """Returns the next line that the host sends, which has to be there whole at this moment."""
        while (length := self.unread.find(b"\n") + 1) == 0:
            if len(self.unread) > MOST_ANSWER:
                raise self.unclear("the host's answer is too long")
            self.read(until)
        line = bytes(self.unread[:length])
        del self.unread[:length]
        return line

    def receive(self, kind, until=None):
        """Returns the next object that the host sends, of this kind."""
        try:
            answer = json.loads(self.line(until))
        except (ValueError, RecursionError):
            raise self.unclear("the host's answer is no JSON") from None
        if not isinstance(answer, dict) or answer.get("version") != VERSION:
            raise self.unclear(f"the host doesn't speak version {VERSION} of the protocol")
        place = wrong_part(REFUSAL if answer.get("ok") is False else kind, answer)
        if place is not None:
            raise self.unclear(f"the host's answer has no {place}, or a wrong one")
        return answer

    def send(self, line):
        """Sends a line of a request."""
        try:
            self.socket.settimeout(self.limit)
            self.socket.sendall(line.encode() + b"\n")
        except BrokenPipeError:
            pass  # what it said before it went is read yet
        except OSError as fault:
            raise self.unclear(fault.strerror or fault) from None

    def ask(self, request, **fields):
        """Asks the host; returns its answer, or raises what it refuses."""
        until = time.monotonic() + self.limit
        name = named(request) if self.names else {}
        self.send(json.dumps({"version": VERSION, "request": request, **name, **fields}))
        answer = self.receive_answer(request, until)
        if answer["ok"]:
            return answer
        if self.names and answer["error"].get("field") == "by":
            self.names = False  # an older host knows no such field
            return self.ask(request, **fields)
        raise Refused(answer["error"])

    def receive_answer(self, request, until):
        """Returns the answer to a request, or its refusal."""
        return self.receive({"ok": is_flag, **ANSWERS.get(request, {})}, until)

    def ends(self):
        """Waits until the host ends the connection, as it becomes another program."""
        try:
            self.read(time.monotonic() + self.limit)
        except Unclear:
            pass

    def follow(self):
        """Returns what yields each event of the host from now on."""
        self.ask("events")
        return iter(lambda: self.receive(EVENT), None)
