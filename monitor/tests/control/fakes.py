"""A host that answers the client program whatever a test wants."""

import contextlib
import json
import socket
import threading
import time


class Fake:
    """A control socket: `answer` makes of a request the objects, or the bytes, that are sent. After
    events the connection ends."""

    def __init__(self, folder, answer):
        self.path, self.answer = f"{folder}/fake", answer
        self.listener = socket.socket(socket.AF_UNIX)
        self.listener.bind(self.path)
        self.listener.listen()
        threading.Thread(target=self.take, daemon=True).start()

    def take(self):
        """Serves each client in a thread of its own."""
        try:
            while True:
                threading.Thread(
                    target=self.serve, args=self.listener.accept()[:1], daemon=True
                ).start()
        except OSError:
            pass

    def serve(self, client):
        """Answers each request of a client, until that has gone."""
        with client, client.makefile("rb") as lines, contextlib.suppress(OSError):
            for asked in map(json.loads, lines):
                for it in self.answer(asked):
                    client.sendall(it if isinstance(it, bytes) else json.dumps(it).encode() + b"\n")
                if asked["request"] == "events":
                    return

    def close(self):
        """Takes no more clients."""
        self.listener.shutdown(socket.SHUT_RDWR)
        self.listener.close()


def drip(line, seconds):
    """Yields a line byte by byte, with this time between two."""
    for byte in line:
        yield bytes([byte])
        time.sleep(seconds)
