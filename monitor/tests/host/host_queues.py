"""A run of a host without any Linux: queues that are long, or that nobody kicks; seats that are
taken away; who goes amid a message."""

import os
import struct
import subprocess
import tempfile
import time

from host_checks import eventually, files_of
from host_seats import becomes
from host_small import PAGES, Talker
from linux_kit import built, demand
from vhost_client import (
    ADD_MEM_REG,
    BUFFERS,
    DEFLATE,
    INFLATE,
    NO_FILE,
    OFFERED,
    PAGE,
    REGIONS,
    REPORT,
    SET_VRING_KICK,
    WRITE,
    Client,
)
from waiting import PATIENCE

MOST_CHAINS = 256

# Where memory may end, at most.
MOST_SET = 1 << 36


def comes(town, name="a", size=8):
    """Returns a client that isn't asked for anything, whose queues run."""
    client = Client(town.host.add(name), town.host.why)
    client.start(size=size)
    return client


def is_used(client, number, count):
    """Whether `count` chains of a queue are used."""
    return client.read(client.table(number) + 2 * PAGE + 2, 2) == struct.pack("<H", count)


def long_queue(town):
    """What a notice leaves on a queue is served at once, and not at the next look, which is a
    minute away."""
    client = comes(town, size=MOST_CHAINS)
    for head in range(MOST_CHAINS):
        client.describe(DEFLATE, head, BUFFERS, 4)
    client.write(
        client.table(DEFLATE) + PAGE,
        struct.pack(f"<HH{MOST_CHAINS}H", 1, MOST_CHAINS, *range(MOST_CHAINS)),
    )
    client.kick(DEFLATE)
    eventually(
        lambda: is_used(client, DEFLATE, MOST_CHAINS), "what is left on a queue isn't served", 5
    )
    return client


def queue_that_nobody_kicks(client):
    """A queue without a kick is looked at all the same."""
    client.accepted(SET_VRING_KICK, struct.pack("<Q", INFLATE | NO_FILE))
    time.sleep(0.1)
    client.write(BUFFERS, struct.pack("<I", PAGES))
    client.describe(INFLATE, 0, BUFFERS, 4)
    client.publish(INFLATE, 0)
    eventually(lambda: is_used(client, INFLATE, 1), "a queue that nobody kicks isn't looked at", 5)


def last_queue_s_kick(client):
    """The last queue is kicked by its event, too."""
    event = os.eventfd(0, os.EFD_NONBLOCK)
    client.accepted(SET_VRING_KICK, struct.pack("<Q", REPORT), [event])
    client.describe(REPORT, 0, REGIONS[1][0], PAGE, WRITE)
    client.publish(REPORT, 0)
    os.eventfd_write(event, 1)
    eventually(lambda: is_used(client, REPORT, 1), "the last queue's kick isn't taken", 5)
    os.close(event)


def seats_that_go(town):
    """A seat between others is taken away, with its client; its socket and its files go."""
    files = lambda: files_of(town.host.process.pid)
    before = files()
    clients = [comes(town, it) for it in ("first", "second", "third")]
    town.host.demand("remove second")
    demand(
        list(town.host.guests()) == ["a", "first", "third"],
        f"of three guests the second one goes: {list(town.host.guests())}",
    )
    demand(
        sorted(os.listdir(town.host.folder)).count("second") == 0,
        "a socket is left of a guest that was taken away",
    )
    clients[2].post_pages(INFLATE, [PAGES])
    becomes(town, {"ballooned": 1}, "third")
    for name in ("third", "first"):
        town.host.demand(f"remove {name}")
    demand(list(town.host.guests()) == ["a"], f"one guest is left: {list(town.host.guests())}")
    eventually(
        lambda: files() == before, lambda: f"the host has {files()} files open, and had {before}", 5
    )
    for it in clients:
        it.leave()


def who_goes_amid_a_message(town):
    """The files that came with half a message are closed: with the process that has them, and not
    with the host."""
    path = town.host.add("half")
    before = files_of(town.host.process.pid)
    for _ in range(3):
        client = Client(path, town.host.why)
        client.negotiate(protocol=OFFERED)
        process = town.host.guests()["half"]["process"]
        had = files_of(process)
        client.socket.sendmsg(
            [struct.pack("<IIIQ", ADD_MEM_REG, 1, 40, 0)],
            [(1, 1, struct.pack("i", client.files[0]))],
        )
        eventually(lambda: files_of(process) == had + 1, "a file doesn't come", 5)
        town.host.counters()  # it doesn't wait for the rest
        client.leave()
        becomes(town, {"here": 0}, "half")
        eventually(lambda: not os.path.exists(f"/proc/{process}"), "a process doesn't end", 5)
        eventually(
            lambda: files_of(town.host.process.pid) == before,
            "the host has more files open than before",
            5,
        )


def memory_far_up(town):
    """A guest's memory may end at 64 GiB, and no page further up."""
    for end, here in ((MOST_SET, 1), (MOST_SET + PAGE, 0)):
        client = Client(f"{town.host.folder}/half", town.host.why)
        client.negotiate(protocol=OFFERED)
        body = struct.pack("<QQQQQ", 0, end - PAGE, PAGE, 0, 0)
        client.send(ADD_MEM_REG, body, client.files[:1], flags=1)
        becomes(town, {"here": here, "pages": here}, "half")
        client.leave()
        becomes(town, {"here": 0}, "half")
    said = town.host.why_of("half")
    demand(said == "refused half: its memory ends above 64 GiB", said)


def channel_that_nobody_reads(town):
    """It is said whose client can't be told, a hundred times."""
    client = comes(town, "deaf")
    for target in range(3000):
        town.host.demand(f"deaf target {target}")
        if target % 50 == 0:
            town.host.ask("deaf counters")  # its process has heard all of them

    def said():
        with open(town.host.log, encoding="latin-1") as log:
            return [it for it in log if "can't be told" in it]

    eventually(
        lambda: said() == ["deaf: the client can't be told of a change\n"] * 100,
        lambda: f"{len(said())} lines: {said()[:1]}",
        5,
    )
    client.leave()


def next_one_at_a_seat(town):
    """Who comes to a seat tells as many statistics as the one before, and takes as many pages back
    by itself."""
    path = town.host.add("seat")
    for _ in range(2):
        client = Talker(path, town.host.why, 60)
        becomes(town, {"free": 60, "answers": 1, "statistics": 1}, "seat")
        town.host.demand("seat target 20")
        town.host.ask("seat counters")  # its process has heard that
        client.post_pages(INFLATE, list(range(PAGES, PAGES + 20)))
        client.post_pages(DEFLATE, list(range(PAGES, PAGES + 5)))
        becomes(town, {"ballooned": 15, "taken": 5, "free": 0}, "seat")
        client.leave()
        becomes(town, {"here": 0}, "seat")
    # Of one who tells nothing, nothing is known.
    client = Client(path, town.host.why)
    client.start()
    becomes(town, {"here": 1, "ready": 1, "answers": 0, "taken": 0, "statistics": 0}, "seat")
    client.leave()
    becomes(town, {"here": 0}, "seat")


def memory_once_more(town):
    """A guest that has its frames keeps them as it hands its memory over again, though there are
    none for another one."""
    client = Talker(f"{town.host.folder}/seat", town.host.why, 60)
    becomes(town, {"pages": 128}, "seat")
    town.host.demand("budget 0")
    client.hand_over_memory()
    becomes(town, {"here": 1, "pages": 128}, "seat")
    client.leave()


def longest_path(bench):
    """A socket's path has 107 bytes at most (unix(7))."""
    with tempfile.TemporaryDirectory() as folder:
        deep = os.path.join(folder, (99 - len(folder)) * "x")
        os.mkdir(deep)
        words = [
            built("checked/vhost_user_host"),
            deep,
            "--budget",
            "5",
            "--control",
            f"{folder}/.control",
            "--status",
            f"{folder}/.status",
        ]
        ran = subprocess.run(
            words,
            input="add sixsix\nadd sevenss\nquit\n",
            capture_output=True,
            text=True,
            timeout=PATIENCE,
        )
    said = f"ready\nlistening {deep}/sixsix\nerror: sevenss: File name too long\n"
    demand(
        (ran.returncode, ran.stdout, len(deep)) == (0, said, 100),
        f"paths of 107 and 108 bytes: {ran}",
    )


def queues_run(bench):
    """Queues and seats of a host that looks once a minute."""
    longest_path(bench)
    with bench.town(
        5, ("--floor", "0", "--period", "60000", "--lines", "1000"), checked=True
    ) as town:
        client = long_queue(town)
        demand(town.host.ask("a ask") == "nothing", "a guest is asked whose buffer isn't there")
        last_queue_s_kick(client)
        queue_that_nobody_kicks(client)
        seats_that_go(town)
        who_goes_amid_a_message(town)
        memory_far_up(town)
        channel_that_nobody_reads(town)
        next_one_at_a_seat(town)
        memory_once_more(town)
        client.leave()
    return "long queues, queues that nobody kicks, seats that go"
