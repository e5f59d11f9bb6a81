"""The status of a host by the URL of its `bigvasta serve`."""

import socket

from bigvasta.addresses import parse_address, why
from bigvasta.connection import Connection
from bigvasta.statuses import Away

SCHEME = "http://"


def address_of(url):
    """Returns the host and the port of a URL."""
    return parse_address(url[len(SCHEME) :].removesuffix("/"), url)


class Fetched(Connection):
    """A connection to a server, which answers one request for the status."""

    def reach(self):
        """Returns a socket that is connected to the server."""
        try:
            return socket.create_connection(address_of(self.path), self.limit)
        except (OSError, UnicodeError) as fault:
            raise Away(f"no host answers at {self.path}: {why(fault)}") from None

    def send(self, line):
        """Sends a request for the status, whose last end of a line is added."""
        name = self.path[len(SCHEME) :].removesuffix("/")
        super().send(f"GET /status HTTP/1.0\r\nHost: {name}\r\n\r")

    def receive_answer(self, request, until):
        """Returns the answer, which comes after the lines of its head."""
        while self.line(until).strip():
            pass
        return super().receive_answer(request, until)


def connect(place, limit):
    """Returns a connection to a host, by the path of its socket or the URL of its server."""
    return (Fetched if place.startswith(SCHEME) else Connection)(place, limit)
