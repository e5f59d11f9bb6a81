"""The scripts of tools/measure whose events are counted, and whose time and memory are taken: by
their names, loads."""

import random
import re

SEED = 20_261_123

# Frames of a host, at most.
MOST_FRAMES = 65_536

# Rounds of the long script, where instructions are counted and where memory is looked at.
ROUNDS, ROUNDS_IN_MEMORY = 2_500, 25_000

# Rounds of the worked script: where instructions are counted, and where time is taken.
WORKED, WORKED_IN_TIME = 2_500, 65_540

# Bytes of the longest script that the program reads.
MOST_TEXT = 64 * 2**20

# Its events, by guest, page and queue.
TEXT_EVENTS = (
    "alloc {guest} 0 0",
    "free {guest} 0 {page} 0",
    "write {guest} {page} {page} {page:02x}",
    "read {guest} {page} 0 2",
    "inflate {guest} 1",
    "deflate {guest} 1",
    "take {guest} {queue}",
    "finish {guest} {queue} 0",
    "reap {guest} {queue}",
    "backing {guest} {page}",
    "balloon {guest}",
)

PLACES = ("free", "used", "giving", "lent", "taking", "stranded", "reporting", "ballooned")

# Each of these goes through a queue of its own from a driver's request to its end.
INFLATES, DEFLATES, STATISTICS, REPORTS = 0, 1, 2, 4


class Script:
    """The lines of a host: those that make it, and the events that are counted."""

    def __init__(self, frames, spares, start):
        self.head = [f"host {frames}"] + [f"spare {it}" for it in spares]
        self.start = start
        self.events = []

    def text(self, events=None):
        """Returns the script, with these events after its start."""
        lines = self.head + self.start + (self.events if events is None else events)
        return "".join(f"{it}\n" for it in lines).encode()


def alone(pages, queue=64, frames=None, paced=False):
    """Returns a script that begins with one initialised guest."""
    start = [f"plug {pages} {queue} 1", "init 0", f"target 0 {pages}"]
    return Script(
        frames or min(pages + 64, MOST_FRAMES), ["paced" if paced else "immediate"], start
    )


def lent(guest, count):
    """Returns the lines by which a guest gives `count` pages to the host."""
    return [f"inflate {guest} {count}", *served(guest, INFLATES)]


def asked_back(guest, count):
    """Returns the lines by which a guest gets `count` pages back, for any target."""
    return [f"oom {guest} {count}", *served(guest, DEFLATES)]


def served(guest, queue):
    """Returns the lines from a posted request to its end."""
    return [f"take {guest} {queue}", f"finish {guest} {queue} 0", f"reap {guest} {queue}"]


def digits(chance, count):
    """Returns `count` bytes as hexadecimal digits."""
    return chance.randbytes(count).hex()


# The scripts of the first table.


def long_script(program, rounds=ROUNDS):
    """Returns the long script: one guest, the same sixteen events again and again."""
    script = alone(1_024)
    script.events = ["alloc 0 0 0"]
    page = program.pages(script)[0]
    script.events = []
    for it in range(rounds):
        at = it % 4_000
        script.events += ["alloc 0 0 0", f"write 0 {page} {at} {at:04x}", f"read 0 {page} {at} 2"]
        script.events += [
            "target 0 2",
            *lent(0, 2),
            "target 0 0",
            "deflate 0 2",
            *served(0, DEFLATES),
        ]
        script.events += [f"backing 0 {page}", "balloon 0", f"free 0 0 {page} 0"]
    return script


def worked_script(_program, rounds=WORKED):
    """Returns the worked script: one page goes out and comes back, again and again."""
    script = Script(128, ["immediate"], ["plug 64 2 1", "init 0"])
    there = ["target 0 1", "inflate 0 1", *served(0, INFLATES)]
    back = ["target 0 0", "deflate 0 1", *served(0, DEFLATES)]
    script.events = (there + back) * rounds
    return script


def lives_script(_program, rounds=500):
    """Returns the ends and beginnings of the lives of four guests of 64 pages."""
    guests = range(4)
    start = [line for it in guests for line in ("plug 64 8 1", f"init {it}")]
    script = Script(512, ["immediate"] * 4, start)
    round_ = [
        line
        for it in guests
        for line in (f"reset {it}", f"init {it}", f"restart {it}", f"init {it}")
    ]
    script.events = round_ * rounds
    return script


def ask_script(_program, rounds=2_000):
    """Returns rounds of the statistics buffer: it is taken, asked for, and filled."""
    script = alone(64)
    script.events = ["take 0 2", "ask 0", "stats 0"] * rounds
    return script


def text_script(_program, size=MOST_TEXT):
    """Returns `size` bytes of random events, on four guests of 64 pages."""
    chance = random.Random(SEED)
    start = [line for it in range(4) for line in ("plug 64 8 1", f"init {it}", f"target {it} 16")]
    script = Script(512, ["immediate"] * 4, start)
    left = size - len(script.text([]))
    while left > 64:
        guest, page, queue = chance.randrange(4), chance.randrange(64), chance.randrange(2)
        script.events.append(chance.choice(TEXT_EVENTS).format(guest=guest, page=page, queue=queue))
        left -= len(script.events[-1]) + 1
    return script


def bytes_script(program, count=2_000):
    """Returns writes and reads of 64 to 512 bytes."""
    chance, script = random.Random(SEED), alone(1_024)
    script.start += ["alloc 0 0 4"]
    block = program.pages(script)[0]
    script.start += [f"write 0 {block + it} 0 00" for it in range(16)]
    for _ in range(count):
        size = chance.randint(64, 512)
        at = f"0 {block + chance.randrange(16)} {chance.randint(0, 4_096 - size)}"
        script.events += [f"write {at} {digits(chance, size)}", f"read {at} {size}"]
    return script


def questions_script(program, count=60):
    """Returns `places` and `pages` of each place, on a guest with some pages at most of them."""
    script = alone(4_096)
    script.start += ["alloc 0 0 0"] * 256
    script.start += [f"free 0 0 {it} 0" for it in sorted(set(program.pages(script)))[::2]]
    script.start += lent(0, 64) + ["inflate 0 16", "oom 0 16"]
    script.events = (["places 0"] + [f"pages 0 {it}" for it in PLACES]) * count
    return script


def alloc_script(_program, count=8_000):
    """Returns allocations of one page."""
    script = alone(16_384)
    script.events = ["alloc 0 0 0"] * count
    return script


def mix_script(program, size, rounds=12):
    """Returns all events, in a random order, on two guests of this size, the second one paced."""
    chance = random.Random(SEED)
    script = Script(MOST_FRAMES, ["immediate"] + ["paced"] * (1 + rounds), [])
    for guest in range(2):
        script.start += [f"plug {size} 64 4", f"init {guest}", f"target {guest} 2000"]
        script.start += lent(0, 256) if guest == 0 else []
    for _ in range(rounds):
        orders = [chance.choice((0, 0, 0, 1, 2, 3)) for _ in range(60)]
        script.events += [f"alloc 0 {chance.randrange(4)} {it}" for it in orders]
        probe = Script(0, [], script.start)
        probe.head, probe.events = script.head, script.events + ["pages 0 ballooned"]
        replies = program.replies(probe.text())
        blocks = [int(it.split()[1]) for it in replies if it.startswith("page ")][-len(orders) :]
        swept = int(re.search(r"\d+", replies[-1])[0])
        chunks = [[f"sweep 0 {swept}", f"backing 0 {swept}"], *of_blocks(chance, blocks, orders)]
        rest = of_balloon(chance) + of_lives(size)
        chance.shuffle(rest)
        script.events += [line for chunk in chunks + rest for line in chunk]
    return script


def of_blocks(chance, blocks, orders):
    """Returns what is done with each allocated block: some writes and reads, and then it is
    freed."""
    for block, order in zip(blocks, orders):
        size = chance.randint(1, 64)
        at = f"0 {block} {chance.randint(0, 4_096 - size)}"
        yield [f"write {at} {digits(chance, size)}", f"read {at} {size}"]
        yield [f"free 0 {chance.randrange(4)} {block} {order}"]


def of_balloon(chance):
    """Returns pieces of a balloon's life, each of which may be anywhere."""
    chunks = []
    for _ in range(12):
        count = chance.choice((1, 2, 4, 16, 64))
        chunks += [lent(0, count) + asked_back(0, count)]
        chunks += [["report 0 16", *served(0, REPORTS)]]
        chunks += [["inflate 1 4", "take 1 0", *["work 1"] * 4, "finish 1 0 0", "reap 1 0"]]
        chunks += [
            ["target 0 100", "deflate 0 4", *served(0, DEFLATES), "target 0 2000", *lent(0, 4)]
        ]
        chunks += [["frames", "balloon 0", f"pages 0 {chance.choice(PLACES)}", "places 0"]]
    chunks += [
        [f"take {it} {STATISTICS}", f"ask {it}", f"stats {it}", f"memory {it}"] for it in range(2)
    ]
    return chunks + [["balance 64", "target 0 2000", "target 1 2000"]]


def of_lives(size):
    """Returns the ends and beginnings of the second guest's lives, and what makes it rogue."""
    again = ["init 1", "target 1 2000"]
    return [
        ["scribble 1 20 0 abcd", "restart 1", *again],
        ["reset 1", *again],
        ["unplug 1", f"plug {size} 64 4", *again],
    ]


# What the first table has, by name.
LOADS = {
    "worked": worked_script,
    "long": long_script,
    "mix 4096": lambda program: mix_script(program, 4_096),
    "mix 16384": lambda program: mix_script(program, 16_384),
    "bytes": bytes_script,
    "questions": questions_script,
    "alloc": alloc_script,
    "lives": lives_script,
    "ask": ask_script,
}

# What time is taken of: the same, so much longer that the program's start doesn't count.
TIMED = {
    "worked": lambda program: worked_script(program, WORKED_IN_TIME),
    "long": lambda program: long_script(program, ROUNDS_IN_MEMORY),
    "mix 4096": LOADS["mix 4096"],
    "mix 16384": LOADS["mix 16384"],
    "bytes": lambda program: bytes_script(program, 40_000),
    "questions": lambda program: questions_script(program, 1_000),
    "alloc": lambda program: alloc_script(program, 16_000),
    "lives": lambda program: lives_script(program, 10_000),
    "ask": lambda program: ask_script(program, 100_000),
    "text": text_script,
}
