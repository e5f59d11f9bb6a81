"""A client of QEMU's own control socket, QMP."""

import json
import socket

from linux_packages import Fault
from waiting import PATIENCE


class Qmp:
    """A connection to the control socket of a QEMU."""

    def __init__(self, path):
        self.events = []
        self.socket = socket.socket(socket.AF_UNIX, socket.SOCK_STREAM)
        self.socket.settimeout(PATIENCE)
        self.socket.connect(path)
        self.lines = self.socket.makefile("r")
        self.lines.readline()
        self.do("qmp_capabilities")

    def read(self):
        """Returns the next answer; keeps an event."""
        try:
            said = json.loads(self.lines.readline() or "{}")
        except OSError as fault:
            raise Fault(f"QEMU's control socket: {fault}") from None
        if not said or "error" in said:
            raise Fault(f"QEMU says {said.get('error') or 'nothing: it has gone'}")
        if "event" in said:
            self.events.append(said)
        return said

    def do(self, command, **arguments):
        """Has QEMU do a command; returns its answer."""
        self.socket.sendall(json.dumps({"execute": command, "arguments": arguments}).encode())
        while "return" not in (said := self.read()):
            pass
        return said["return"]

    def await_event(self, name, **data):
        """Waits for an event with these data that no one has waited for yet."""
        of_it = lambda said: said["event"] == name and data.items() <= said.get("data", {}).items()
        while not (found := [it for it in self.events if of_it(it)]):
            self.read()
        self.events.remove(found[0])

    def close(self):
        """Goes."""
        self.lines.close(), self.socket.close()
