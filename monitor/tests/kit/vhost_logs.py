"""A log of what a device writes, as a client hands it over that migrates its guest, and reads it
meanwhile."""

import os
import struct

from vhost_client import (
    FEATURES,
    HAS_PROTOCOL,
    LOG_ALL,
    PAGE,
    SET_FEATURES,
    SET_LOG_BASE,
    SET_VRING_ADDR,
)
from vhost_demands import word

# A bit for each page up to the end of memory, in one page; where a log begins in its file.
LOG_BYTES, LOG_OFFSET = 4096, 8192
LOGGED = 1


def log_file(size=LOG_OFFSET + LOG_BYTES):
    """Returns a log's file, which lets itself be sealed."""
    file = os.memfd_create("log", os.MFD_ALLOW_SEALING)
    os.truncate(file, size)
    return file


def address_body(client, number, flags, log=None):
    """Returns the body that says where a queue is, and where writes to it are logged."""
    user = client.regions[client.region][1] + 3 * number * PAGE
    guest = client.table(number) + 2 * PAGE
    return struct.pack(
        "<IIQQQQ", number, flags, user, user + 2 * PAGE, user + PAGE, guest if log is None else log
    )


def log_base(client, file, size=LOG_BYTES, offset=LOG_OFFSET):
    """Hands a log over; returns the answer."""
    return client.send(SET_LOG_BASE, struct.pack("<QQ", size, offset), [file])


def set_logging(client, on, queues=range(4)):
    """Has what the device writes to these queues logged, or no longer, as QEMU does."""
    client.accepted(SET_FEATURES, word(FEATURES | HAS_PROTOCOL | (LOG_ALL if on else 0)))
    for number in queues:
        client.accepted(SET_VRING_ADDR, address_body(client, number, LOGGED if on else 0))


def logged(file):
    """Returns the pages that a log has, and clears it."""
    bits = os.pread(file, LOG_BYTES, LOG_OFFSET)
    os.pwrite(file, bytes(LOG_BYTES), LOG_OFFSET)
    return [it for it in range(8 * LOG_BYTES) if bits[it // 8] >> it % 8 & 1]


def page_of_used(client, number):
    """Returns the page of a queue's used ring."""
    return client.table(number) // PAGE + 2
