"""The status of a host that is looked at again and again."""

from bigvasta.connection import Connection
from bigvasta.statuses import Fault

# Seconds in which a host has to answer: no longer, as keys and clients wait meanwhile.
PATIENCE = 2.0


class Source:
    """A host, which may go and come back: its last status, and why there is no newer one."""

    def __init__(self, path):
        self.path, self.connection, self.status, self.fault = path, None, None, ""

    def ask(self):
        """Asks for the status, over a new connection where the old one has ended."""
        self.connection = self.connection or Connection(self.path, PATIENCE)
        self.status, self.fault = self.connection.ask("status"), ""

    def look(self):
        """Asks for the status; returns it, or None where no host answers."""
        try:
            self.ask()
            return self.status
        except Fault as fault:
            self.fault = str(fault)
            self.close()
            return None

    def close(self):
        """Lets go of the host."""
        if self.connection:
            self.connection.close()
        self.connection = None
