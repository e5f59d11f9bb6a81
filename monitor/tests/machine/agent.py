"""Runs what comes by a port of its machine, one command after the other, and tells what each
prints, line by line, and its status.

    agent.py PORT

A line of JSON comes, the words for a shell; lines of JSON go: each line that is printed, and at the
end a number.
"""

import json
import os
import subprocess
import sys
import time


def tell(port, word):
    """Tells a line, or a status."""
    data = json.dumps(word).encode() + b"\n"
    while data:
        data = data[os.write(port, data) :]


def run(port, words):
    """Runs a command; what it prints goes as it comes."""
    process = subprocess.Popen(
        ["/bin/bash", "-ec", words],
        stdin=subprocess.DEVNULL,
        stdout=subprocess.PIPE,
        stderr=subprocess.STDOUT,
        start_new_session=True,
        env={**os.environ, "LC_ALL": "C.UTF-8", "HOME": "/root", "PYTHONDONTWRITEBYTECODE": "1"},
    )
    for line in process.stdout:
        tell(port, line.decode("utf-8", "replace").rstrip("\n"))
    tell(port, process.wait())


def words_of(port):
    """Yields each command that comes, for as long as the machine runs."""
    rest = b""
    while True:
        got = os.read(port, 1 << 16)
        if not got:
            time.sleep(0.2)  # nobody is at the other end
        *lines, rest = (rest + got).split(b"\n")
        yield from map(json.loads, lines)


def main(path):
    """Serves a port, which can be open once."""
    port = os.open(path, os.O_RDWR)
    tell(port, 0)
    for words in words_of(port):
        run(port, words)


if __name__ == "__main__":
    main(sys.argv[1])
