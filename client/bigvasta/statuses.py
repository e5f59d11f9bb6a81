"""The exit statuses of the program, and the faults that end in them."""

DONE, REFUSED, USAGE, AWAY, UNCLEAR, PART = range(6)

# What --help says of them.
TABLE = """exit statuses:
  0  done
  1  the host refused, and nothing has changed; of plan --check: the replay differs
  2  the command line is wrong
  3  no host answers: it isn't running, or its socket may not be opened
  4  the host's answer isn't understood or can't be written, or it went away amid an answer
  5  in part: of upgrade, a guest's process stays as it was; of fleet, a host doesn't answer"""


class Fault(Exception):
    """Ends the program with a status, and a line that says why."""

    status = UNCLEAR


class Refused(Fault):
    """The host refused a request; `code` is the protocol's."""

    status = REFUSED

    def __init__(self, error):
        self.code, self.field, self.text = (
            error.get("code", "?"),
            error.get("field"),
            error.get("text", ""),
        )
        super().__init__(": ".join(it for it in (self.field, self.text) if it))


class Usage(Fault):
    """A word of the command line is wrong."""

    status = USAGE


class Away(Fault):
    """No host answers."""

    status = AWAY


class Unclear(Fault):
    """The host's answer isn't understood."""
