"""What tests demand of a client's backend: that a request is served, that none is, that the service
ends with these words."""

import struct
import time

from vhost_client import BUFFERS, PAGE, REGIONS, STATISTICS

# The first page of the second region.
FIRST = REGIONS[1][0] // PAGE

# Seconds in which something that mustn't happen would have happened.
MOMENT = 0.1

# Chains of the largest queue, more than a notice serves.
MOST_CHAINS = 256


def word(number):
    """Returns a body of one number."""
    return struct.pack("<Q", number)


def post_statistics(client, *values, first=4):
    """Posts statistics with these values, whose tags are this one and those after it."""
    data = b"".join(struct.pack("<HQ", tag, it) for tag, it in enumerate(values, first))
    client.write(BUFFERS, data)
    client.describe(STATISTICS, 0, BUFFERS, len(data))
    client.publish(STATISTICS, 0)
    client.kick(STATISTICS)


def demand_served(client, number, pages, head=0):
    """Posts a request to a queue that calls by an event, and demands that it is used and called."""
    client.post_pages(number, pages, head)
    assert client.called(number) == 1
    assert client.used(number)[0] == client.available[number] & 0xFFFF


def demand_unserved(client, number):
    """Demands that nothing is served of a queue for a moment, though it is kicked."""
    before = client.used(number)
    client.kick(number)
    time.sleep(MOMENT)
    client.counter("kicks")
    assert (client.used(number), client.called(number, 0)) == (before, 0)


def demand_refused(client, words):
    """Demands that the backend ends with these words."""
    try:
        while client.receive():
            pass
    except ConnectionResetError:
        pass
    status, said = client.close()
    assert status == 1, said
    assert said.startswith("refused: ") and words in said, said
