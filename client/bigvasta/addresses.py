"""Addresses of servers, as an operator writes them."""

import re

from bigvasta.statuses import Usage

MOST_PORT, LOCAL = 65535, "127.0.0.1"


def parse_address(text, name="--listen"):
    """Returns the host and the port of an address such as localhost:9750 or [::1]:9750; localhost
    is one even where no file says so."""
    found = re.fullmatch(r"(?:\[([0-9a-fA-F:]+)\]|([^\[\]:]*)):(\d{1,5})", text, re.ASCII)
    if not found or not 1 <= int(found[3]) <= MOST_PORT:
        raise Usage(f"{name}: {text!r} is no HOST:PORT, such as localhost:9750")
    host = found[1] or found[2] or "localhost"
    return LOCAL if host == "localhost" else host, int(found[3])


def why(fault):
    """Returns why an address can't be had, without a number."""
    return getattr(fault, "strerror", None) or fault
