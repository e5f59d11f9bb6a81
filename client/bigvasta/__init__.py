"""A client of a host's control socket: what an operator sees of a host, and what they change
(docs/CONTROL.md)."""

__version__ = "0.4.0"
