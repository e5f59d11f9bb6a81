"""The server of `bigvasta serve`: a page of the host, its status and its metrics over HTTP, for
clients that may be slow or hostile. It reads, and changes nothing."""

import asyncio
import base64
import hashlib
import json
import os
import re
import socket
import time
from concurrent.futures import ThreadPoolExecutor
from ipaddress import ip_address
from typing import NamedTuple

from bigvasta.addresses import parse_address, why
from bigvasta.connection import away
from bigvasta.hour import EVERY, Hour
from bigvasta.page import shown
from bigvasta.source import Source
from bigvasta.statuses import Away

# Of a connection: its seconds, and the bytes of its request. How many there are: one more ends the
# oldest one. Seconds for which a status serves all that ask.
LIMIT, MOST_REQUEST, MOST_CLIENTS, FRESH = 10.0, 8192, 64, 0.5

# What of a request that isn't read is thrown away, in requests: a client reads the answer first.
MOST_REST = 8

TEXT, JSON, HTML = "text/plain; charset=utf-8", "application/json", "text/html; charset=utf-8"
METRICS = "text/plain; version=0.0.4; charset=utf-8"

REASONS = {
    200: "OK",
    400: "Bad Request",
    403: "Forbidden",
    404: "Not Found",
    405: "Method Not Allowed",
    431: "Request Header Fields Too Large",
    503: "Service Unavailable",
}

with open(os.path.join(os.path.dirname(__file__), "page.html"), "rb") as its:
    PAGE = its.read()


def allowed(name):
    """Returns what a browser is to take of an element of the page: what is there now, by its
    hash."""
    text = re.search(rb"(?s)<%b>(.*)</%b>" % (name, name), PAGE)[1]
    return f"'sha256-{base64.b64encode(hashlib.sha256(text).digest()).decode()}'"


HEADERS = (
    "Allow: GET, HEAD\r\nCache-Control: no-store\r\nX-Content-Type-Options: nosniff\r\n"
    "Content-Security-Policy: default-src 'none'; connect-src 'self'; base-uri 'none'; "
    "form-action 'none'; frame-ancestors 'none'; "
    f"script-src {allowed(b'script')}; style-src {allowed(b'style')}\r\nConnection: close\r\n"
)


class Answer(NamedTuple):
    """What is answered to a request."""

    status: int
    kind: str
    body: bytes

    def sent(self, is_whole):
        """Returns the bytes that are sent: all, or the head alone."""
        head = (
            f"HTTP/1.1 {self.status} {REASONS[self.status]}\r\nContent-Type: {self.kind}\r\n"
            f"Content-Length: {len(self.body)}\r\n{HEADERS}\r\n"
        )
        return head.encode() + (self.body if is_whole else b"")


def refusal(status, why):
    """Returns the answer to a request that isn't served."""
    return Answer(status, TEXT, f"{why}\n".encode())


def asked_by(request):
    """Returns the method and the path of a request, and the name by which its client calls this
    server; None where it is none."""
    first, *headers = request.split(b"\r\n")
    words = first.split(b" ")
    if len(words) != 3 or not words[2].startswith(b"HTTP/1."):
        return None
    names = [it[5:].strip() for it in headers if it[:5].lower() == b"host:"]
    return words[0], words[1].partition(b"?")[0], b"".join(names)


def is_own_name(name):
    """Whether a name, perhaps with a port, is of this machine alone: a page of a browser that leads
    another name here is a stranger's."""
    return re.fullmatch(rb"(localhost|[\d.]+|\[[\da-fA-F:]+\])?(:\d+)?", name) is not None


def is_loopback(address):
    """Whether an address is of this machine alone, also where it is one of IPv4 that is written as
    one of IPv6."""
    its = ip_address(address)
    return (getattr(its, "ipv4_mapped", None) or its).is_loopback


def listener_at(text):
    """Returns the socket at which clients come."""
    try:
        found = socket.getaddrinfo(*parse_address(text), type=socket.SOCK_STREAM)
        family, *_, address = found[0]
        listener = socket.socket(family)
        listener.setsockopt(socket.SOL_SOCKET, socket.SO_REUSEADDR, 1)
        listener.bind(address)
    except (OSError, UnicodeError) as fault:
        raise Away(f"--listen: {text}: {why(fault)}") from None
    return listener


class Server:
    """The host, its last hour, and the clients, of which the oldest is the first. `metrics_of`
    makes metrics of a status; None: there is no library for them. `is_local`: no other machine
    reaches it."""

    def __init__(self, path, metrics_of, is_local):
        self.is_local = is_local
        self.source, self.hour, self.metrics_of, self.clients = Source(path), Hour(), metrics_of, {}
        self.looked, self.status = None, None
        # One at a time looks at the host, and the clients wait for that together.
        self.lock, self.thread = asyncio.Lock(), ThreadPoolExecutor(max_workers=1)

    async def look(self):
        """Returns the host's status; None where no host answers."""
        async with self.lock:
            if self.looked is None or time.monotonic() - self.looked >= FRESH:
                loop = asyncio.get_running_loop()
                self.status = await loop.run_in_executor(self.thread, self.source.look)
                self.looked = time.monotonic()
        return self.status

    async def page(self):
        """Answers the page, which asks for the status itself."""
        return Answer(200, HTML, PAGE)

    async def facts(self):
        """Answers the status as the host does, and what the page shows of it."""
        status = await self.look()
        if status is None:
            answer = away(self.source.fault)
        else:
            answer = status | {"shown": shown(status, self.hour.lines(time.monotonic()))}
        return Answer(200 if status else 503, JSON, json.dumps(answer).encode() + b"\n")

    async def metrics(self):
        """Answers the metrics, which say themselves that no host answers."""
        if self.metrics_of is None:
            return refusal(503, "metrics want python3-prometheus-client")
        return Answer(200, METRICS, self.metrics_of(await self.look()))

    async def answer(self, asked):
        """Answers a request."""
        if asked is None:
            return refusal(400, "this is no request of HTTP/1")
        method, path, name = asked
        if self.is_local and not is_own_name(name):
            return refusal(403, "this server is localhost alone")
        if method not in (b"GET", b"HEAD"):
            return refusal(405, "all is read by GET or HEAD")
        pages = {b"/": self.page, b"/status": self.facts, b"/metrics": self.metrics}
        if path not in pages:
            return refusal(404, "there are /, /status and /metrics")
        return await pages[path]()

    async def exchange(self, reader, writer):
        """Reads a request, and answers it."""
        asked = None
        try:
            asked = asked_by(await reader.readuntil(b"\r\n\r\n"))
            answer = await self.answer(asked)
        except asyncio.LimitOverrunError:
            answer = refusal(431, f"a request has at most {MOST_REQUEST} bytes")
        writer.transport.set_write_buffer_limits(0)
        writer.write(answer.sent(asked is None or asked[0] != b"HEAD"))
        await writer.drain()
        writer.write_eof()
        for _ in range(MOST_REST):
            if not await reader.read(MOST_REQUEST):
                return

    async def serve(self, reader, writer):
        """Serves a client: one request, in its time."""
        self.clients[writer] = None
        if len(self.clients) > MOST_CLIENTS:
            oldest = next(iter(self.clients))
            del self.clients[oldest]
            oldest.transport.abort()
        try:
            await asyncio.wait_for(self.exchange(reader, writer), LIMIT)
        except (OSError, EOFError, asyncio.TimeoutError):
            pass  # it has gone, or has had its time
        finally:
            self.clients.pop(writer, None)
            writer.transport.abort()

    async def run(self, listener):
        """Serves, and samples the host, until the program ends."""
        server = await asyncio.start_server(self.serve, sock=listener, limit=MOST_REQUEST)
        async with server:
            while True:
                self.hour.note(time.monotonic(), await self.look())
                await asyncio.sleep(EVERY)


def serve(path, text, metrics_of):
    """Serves the host at this socket to the clients of this address."""
    listener = listener_at(text)

    async def begin():
        await Server(path, metrics_of, is_loopback(listener.getsockname()[0])).run(listener)

    asyncio.run(begin())
