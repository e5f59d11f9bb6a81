"""Runs of a host without any Linux: the pages in a guest's balloon as its memory comes and goes,
beside a set that is kept here; what is told of taken pages; and a host that has no files left. Its
guests are clients of 128 pages."""

import os
import random
import resource
import signal
import struct
import subprocess
import tempfile
import time

import linux_host
import linux_kit
from host_checks import eventually
from host_seats import becomes, region, rings_of
from host_small import PAGES, Talker, targets_of
from linux_guest import PAGES_PER_MIB
from linux_kit import demand
from vhost_client import (
    ADD_MEM_REG,
    DEFLATE,
    INFLATE,
    OFFERED,
    PAGE,
    PAGES_OF_REGION,
    REGIONS,
    REM_MEM_REG,
    Client,
)
from waiting import PATIENCE, patience_from_now

# The pages of each region, and where memory may end at most.
OF_REGION = [range(guest // PAGE, guest // PAGE + PAGES_OF_REGION) for guest, _ in REGIONS]
MOST_SET = 1 << 36


def served(client, number, pages):
    """Has a request of these pages served, whose buffer is beside the rings."""
    buffer = REGIONS[client.region][0] + 16 * PAGE
    client.write(buffer, struct.pack(f"<{len(pages)}I", *pages))
    client.describe(number, 0, buffer, 4 * len(pages))
    client.publish(number, 0), client.kick(number)
    end = patience_from_now()
    while client.told() != number:
        demand(time.monotonic() < end, "a request isn't served")


def marks_by_chance(town, kept):
    """What is in the balloon, beside a set that is kept here: pages go in, out, in again, and with
    their region; the other one, where the rings are, stays."""
    client = Client(f"{town.host.folder}/a", town.host.why)
    client.region, other = kept, 1 - kept
    client.negotiate(protocol=OFFERED)
    for number in (0, 1):
        region(client, number, ADD_MEM_REG)
    for number in range(4):
        client.place(number)
    rings_of(client, 1)
    chance, ballooned, here = random.Random(f"marks {kept}"), set(), True
    for _ in range(150):
        pages = chance.sample(
            [*OF_REGION[kept][48:], *(OF_REGION[other] if here else ())], chance.randint(1, 12)
        )
        what = chance.randrange(5)
        if what < 2:
            served(client, INFLATE, pages)
            ballooned |= set(pages)
        elif what < 4:
            served(client, DEFLATE, pages)
            ballooned -= set(pages)
        else:
            region(client, other, REM_MEM_REG if here else ADD_MEM_REG)
            here = not here
            ballooned -= set(OF_REGION[other])
        seen = town.host.guests()["a"]
        demand(
            (seen["ballooned"], seen["pages"]) == (len(ballooned), 64 * (1 + here)),
            f"{len(ballooned)} pages are in the balloon: {seen}",
        )
    client.leave()
    becomes(town, {"here": 0, "ballooned": 0})
    return len(ballooned)


def memory_that_stays(town):
    """The same memory keeps its pages in the balloon as it is handed over once more; memory
    elsewhere has none, nor has memory where a hole was that somebody named."""
    client = Client(f"{town.host.folder}/a", town.host.why)
    client.start()
    served(client, INFLATE, [PAGES, PAGES + 63, OF_REGION[0][63]])
    client.hand_over_memory()
    becomes(town, {"here": 1, "ballooned": 3, "pages": 128})
    client.leave()
    becomes(town, {"here": 0, "ballooned": 0})
    client = Client(f"{town.host.folder}/a", town.host.why)
    client.negotiate(protocol=OFFERED)
    region(client, 0, ADD_MEM_REG)
    for number in range(4):
        client.place(number)
    client.accepted(
        ADD_MEM_REG,
        struct.pack("<QQQQQ", 0, REGIONS[1][0] + 65 * PAGE, PAGE, REGIONS[1][1] + 65 * PAGE, 0),
        client.files[1:],
    )
    rings_of(client, 1)
    served(client, INFLATE, [PAGES + 3, PAGES + 65])  # the first one is in a hole
    becomes(town, {"ballooned": 2, "pages": 65})
    region(client, 1, ADD_MEM_REG)
    becomes(town, {"ballooned": 1, "pages": 129})
    client.leave()


def set_of_a_large_memory(town):
    """One page in the balloon of a memory that ends at 64 GiB: a thousand messages take no longer
    for it."""
    client = Client(f"{town.host.folder}/a", town.host.why)
    client.negotiate(protocol=OFFERED)
    region(client, 0, ADD_MEM_REG)
    client.accepted(
        ADD_MEM_REG,
        struct.pack("<QQQQQ", 0, MOST_SET - PAGE, PAGE, REGIONS[1][1], 0),
        client.files[1:],
    )
    for number in range(4):
        client.place(number)
    rings_of(client, 1)
    served(client, INFLATE, [MOST_SET // PAGE - 1])
    becomes(town, {"ballooned": 1, "pages": 65})
    served(client, DEFLATE, [MOST_SET // PAGE - 1])
    becomes(town, {"ballooned": 0})
    client.leave()


def marks_run(bench):
    """The set of ballooned pages, beside one that is kept here."""
    with bench.town(1024, ("--floor", "0", "--period", "60000"), uncounted=True) as town:
        town.host.add("a")
        left = [marks_by_chance(town, kept) for kept in (0, 1)]
        memory_that_stays(town)
        set_of_a_large_memory(town)
    return f"300 steps, {left} pages left in the balloons"


def who_gives_what(town):
    """What needn't be given of what guests can spare stays to them in equal parts: 16 pages of 100
    and 60, then 50 of 100 and 128, since 16 are too little of 50."""
    a, b = (
        Talker(town.host.add(name), town.host.why, free) for name, free in (("a", 100), ("b", 60))
    )
    becomes(town, {"spare": 100}), becomes(town, {"spare": 60}, "b")
    c = Talker(town.host.add("c"), town.host.why, 0)
    eventually(
        lambda: targets_of(town) == (84, 44, 0),
        lambda: f"128 pages are missing, and the targets are {targets_of(town)}",
        5,
    )
    b.free = 128
    b.tell_again(town)
    eventually(
        lambda: targets_of(town) == (50, 78, 0),
        lambda: f"b can give 128 pages, and the targets are {targets_of(town)}",
        5,
    )
    return a, b, c


def floors_are_decided(town):
    """A change of the floor is a decision."""
    town.host.decisions()
    town.host.demand("floor 1")
    eventually(
        lambda: town.host.counters()["floor"] == PAGES_PER_MIB,
        "the floor isn't what it was set to",
        5,
    )
    said = [(it["why"], it["floor"]) for it, _ in town.host.decisions()]
    demand(
        said == [("budget", PAGES_PER_MIB)],
        f"the floor has changed, and the host has decided by {said}",
    )
    town.host.demand("floor 0")


def deflate_over_the_target(town):
    """Of a deflate that ends below the target, the pages below it alone are taken."""
    client = Talker(town.host.add("d"), town.host.why, 60)
    served(client, INFLATE, list(range(PAGES, PAGES + 30)))
    for first, end, left, taken in ((0, 6, 24, 0), (6, 13, 17, 3), (0, 6, 17, 3), (13, 15, 15, 5)):
        town.host.demand("d target 20")
        served(client, DEFLATE, list(range(PAGES + first, PAGES + end)))
        becomes(town, {"ballooned": left, "taken": taken}, "d")
    client.leave()


def who_does_not_answer(bench):
    """A guest that doesn't answer any longer can spare what is in its balloon, whatever it said
    before."""
    with bench.town(5, ("--floor", "0", "--period", "50"), checked=True) as town:
        client = Talker(town.host.add("a"), town.host.why, 60)
        served(client, INFLATE, list(range(PAGES, PAGES + 10)))
        becomes(town, {"answers": 0, "ballooned": 10, "free": 60, "spare": 10})
        client.leave()


def tells_run(bench):
    """Who gives, what a floor changes, and what is taken or spared."""
    options = ("--floor", "0", "--reserve", "0", "--period", "60000")
    with bench.town(1, options, checked=True) as town:
        clients = who_gives_what(town)
        floors_are_decided(town)
        town.host.demand("budget 64")
        deflate_over_the_target(town)
        for it in clients:
            it.leave()
    who_does_not_answer(bench)
    return "who gives, and what is taken"


def no_file_left(town):
    """A host that has no file left says so and rests; who is served is served, and who waits comes
    once there is one."""
    client = Client(town.host.add("a"), town.host.why)
    client.start()
    path, process = town.host.add("b"), town.host.process.pid
    soft, hard = resource.prlimit(process, resource.RLIMIT_NOFILE)
    resource.prlimit(
        process, resource.RLIMIT_NOFILE, (len(os.listdir(f"/proc/{process}/fd")), hard)
    )
    late = Client(path, town.host.why)
    demand(town.host.is_at_rest(), "no file is left, and the host looks again and again")
    demand(
        town.host.why() == "b can't come: Too many open files",
        f"no file is left, and the host says {town.host.why()}",
    )
    served(client, INFLATE, [PAGES])
    resource.prlimit(process, resource.RLIMIT_NOFILE, (soft, hard))
    late.start()
    becomes(town, {"here": 1, "ready": 1}, "b")
    client.leave(), late.leave()
    becomes(town, {"here": 0}), becomes(town, {"here": 0}, "b")


def said_since(town, before):
    """Returns the lines that the host has said after the first `before` bytes of its log."""
    with open(town.host.log, encoding="latin-1") as log:
        log.seek(before)
        return [it.strip() for it in log]


def break_a_rule(town, path):
    """A client comes, and breaks a rule."""
    client = Client(path, town.host.why)
    client.send(99, flags=1)
    demand(client.receive() is None, "a message that is unknown is answered")
    client.leave()


def lines_of_a_client(town):
    """Who comes again and again, and breaks a rule each time, has five lines a second of the clock,
    and its processes five of what they say; and one each that says that there are more."""
    path, before = town.host.add("c"), os.path.getsize(town.host.log)
    time.sleep(1 - time.monotonic() % 1)
    begin = time.monotonic()
    for _ in range(6):
        break_a_rule(town, path)
    eventually(lambda: len(said_since(town, before)) > 11, "six clients have less than 12 lines")
    in_one_second = int(time.monotonic()) == int(begin)
    for _ in range(34):
        break_a_rule(town, path)
    seconds, said = int(time.monotonic() - begin) + 2, said_since(town, before)
    first, more = [
        "refused c: message 99 is unknown",
        "gone c",
    ], "c: further lines of this second are left out"
    # On a busy machine six clients may take longer than a second.
    demand(
        not in_one_second or said[:12] == [*first * 5, more, more],
        f"six clients in a second: {said[:13]}",
    )
    demand(len(said) <= 12 * seconds, f"{len(said)} lines in {seconds} seconds")
    time.sleep(1), break_a_rule(town, path)
    eventually(
        lambda: said_since(town, before)[-2:] == first, "the next second's first lines aren't said"
    )


def ends_by_signals(bench):
    """A signal ends a host, which removes its sockets; and it answers --help and --version."""
    program = linux_kit.built("checked/vhost_user_host")
    for number in (signal.SIGTERM, signal.SIGINT, signal.SIGHUP):
        with tempfile.TemporaryDirectory() as folder:
            host = linux_host.Host(program, folder, 5)
            host.add("a"), host.add("b")
            host.process.send_signal(number)
            left = (host.process.wait(PATIENCE), os.listdir(folder))
            demand(left == (0, ["backend.log"]), f"after signal {number} there are {left}")
            host.process.stdin.close(), host.process.stdout.close()
    for word, said in (
        ("--help", "vhost_user_host FOLDER --budget MIB"),
        ("--version", "vhost_user_host "),
    ):
        ran = subprocess.run(
            [program, word],
            stdin=subprocess.DEVNULL,
            capture_output=True,
            text=True,
            timeout=PATIENCE,
        )
        demand(
            (ran.returncode, ran.stderr, ran.stdout[: len(said)]) == (0, "", said),
            f"{word} is answered {ran}",
        )
    with tempfile.TemporaryDirectory() as folder:
        words = ["sh", "-c", 'ulimit -n 50; exec "$0" "$@"', program, folder, "--budget", "5"]
        ran = subprocess.run(
            words, input="quit\n", capture_output=True, text=True, timeout=PATIENCE
        )
        demand(
            "files may be wanted, and 50 may be open (RLIMIT_NOFILE)\n" in ran.stderr,
            f"50 files are few for 64 guests: {ran}",
        )


def files_run(bench):
    """A host without files, with clients that have too much to be said of, and one that is
    ended."""
    ends_by_signals(bench)
    with bench.town(5, ("--floor", "0", "--period", "60000", "--lines", "5"), checked=True) as town:
        no_file_left(town)
        lines_of_a_client(town)
    return "no file left, lines of a second, signals"
