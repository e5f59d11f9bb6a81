"""`bigvasta serve` and `bigvasta metrics --listen` beside a host, and what they answer."""

import contextlib
import json
import os
import socket
import subprocess
import urllib.error
import urllib.request

from installed import CLIENT
from waiting import PATIENCE, eventually


def free_port():
    """Returns a port that nobody has."""
    with socket.socket() as it:
        it.bind(("localhost", 0))
        return it.getsockname()[1]


def get(port, path):
    """Returns what a server answers; None while it doesn't."""
    try:
        with urllib.request.urlopen(f"http://localhost:{port}{path}", timeout=PATIENCE) as answer:
            return answer.read().decode()
    except OSError:
        return None


def facts(port):
    """Returns the status, and the object that a server answers with it."""
    try:
        with urllib.request.urlopen(f"http://localhost:{port}/status", timeout=PATIENCE) as answer:
            return answer.status, json.load(answer)
    except urllib.error.HTTPError as answer:
        return answer.code, json.load(answer)


def said(port, request):
    """Returns all that a server says to these bytes."""
    with socket.create_connection(("127.0.0.1", port), PATIENCE) as it:
        it.sendall(request)
        with it.makefile("rb") as answer:
            return answer.read()


@contextlib.contextmanager
def serving(control, command="serve", start=("-m", "bigvasta")):
    """Serves a host; has the port, and the process."""
    port = free_port()
    words = ["/usr/bin/python3", "-B", *start, command, "--listen", f"localhost:{port}"]
    environment = {**os.environ, "PYTHONPATH": CLIENT, "BIGVASTA_CONTROL": control}
    with subprocess.Popen(words, env=environment) as it:
        try:
            eventually(lambda: get(port, "/"), "nobody serves")
            yield port, it
        finally:
            it.terminate()
