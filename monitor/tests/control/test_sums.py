"""What a host counts of its guests: one waits, one is silent, one took memory back unasked, and the
work of one lacks memory."""

import struct

from hosts import FREE_MEMORY, Answering
from test_waits import GIVEN, GUEST, Coming
from vhost_client import BUFFERS, DEFLATE, INFLATE, PAGE, STATISTICS
from vhost_logs import set_logging
from waiting import eventually

# The tag of processes that were killed for lack of memory (Linux 6.12), which presses a guest for
# two minutes, whatever its balloon does.
KILLS = 10

# Of each count of a host: whether a guest is one of those, or how much of it it has.
COUNTS = {
    "guests": lambda it: 1,
    "waiting": lambda it: it["waits_for"] != "nothing",
    "silent": lambda it: it["state"] == "ready" and not it["answers"],
    "uncooperative": lambda it: not it["cooperates"],
    "pressed": lambda it: it["pressed"],
    "migrating": lambda it: it["migration"] != "none",
    "held": lambda it: it["held"],
    "lent": lambda it: it["loan"],
}


class Killing(Answering):
    """A guest of whose processes one more was killed at each question."""

    kills = 0

    def tell(self):
        """Posts statistics."""
        self.kills += 1
        data = struct.pack("<HQHQ", FREE_MEMORY, self.free * PAGE, KILLS, self.kills)
        self.client.write(BUFFERS + PAGE, data)
        self.client.describe(STATISTICS, 0, BUFFERS + PAGE, len(data))
        self.client.publish(STATISTICS, 0)
        self.client.kick(STATISTICS)


def takes_back(host, client):
    """Has the taker give pages, and take them back unasked. Returns whether they were: a target may
    be decided again meanwhile, as guests come."""

    def become(ballooned):
        eventually(lambda: host.guest("taker")["ballooned"] == ballooned)

    client.post_pages(INFLATE, GIVEN)
    become(len(GIVEN) * PAGE)
    told = host.guest("taker")["counters"]["told"]
    host.ask("guest", name="taker", target=len(GIVEN) * PAGE)
    eventually(lambda: host.guest("taker")["counters"]["told"] > told)
    client.post_pages(DEFLATE, GIVEN)
    become(0)
    return not host.guest("taker")["cooperates"]


def come_all(host, arrive):
    """Has a guest of each kind come; returns those that are to go."""
    taker, silent = arrive("taker"), arrive("silent")
    host.ask("add", name="kills")
    kills = Killing(host, "kills")
    set_logging(kills.client, True)
    eventually(lambda: all(it["answers"] for it in host.ask("status")["guests"]))
    eventually(lambda: takes_back(host, taker.client))
    silent.stop()
    host.ask("budget", bytes=3 * GUEST)
    return kills, Coming(host, "late", strict=True)


def test_each_count_of_a_host_is_that_of_its_guests(host, arrive):
    here = come_all(host, arrive)

    def differ():
        status = host.ask("status")
        sums = {name: sum(map(of, status["guests"])) for name, of in COUNTS.items()}
        found = {name: status["host"][name] for name in COUNTS}
        return None if found == sums and all(found.values()) else (found, sums)

    eventually(lambda: differ() is None, differ)
    for it in here:
        it.leave()


def test_what_took_time_is_counted_within_its_bounds(host, arrive):
    """All that was counted took together no less than the bounds below, and no more than those
    above."""
    arrive("a")
    eventually(lambda: host.guest("a")["answers"])
    for name, its in host.status()["measures"].items():
        if isinstance(its, dict) and "bounds" in its:
            bounds, counts = [0, *its["bounds"], float("inf")], its["counts"]
            took = [
                (low, high, count) for low, high, count in zip(bounds, bounds[1:], counts) if count
            ]
            least, most = (sum(it[end] * it[2] for it in took) for end in (0, 1))
            assert least <= its["sum"] <= most, (name, its)
            assert took or name == "waits"
