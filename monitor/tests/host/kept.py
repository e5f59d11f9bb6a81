"""What a guest's process keeps for the next one (monitor/backends/process/kept.h): its fields by
the headers, and their values in the memfd of a process."""

import functools
import glob
import os
import re
import signal
import struct
import subprocess
import tempfile

import linux_kit
from tenants import AVAILABLE, FREE, eventually, go_on, process_of, status_of, stop
from vhost_client import (
    BUFFERS,
    DEFLATE,
    FEATURES,
    INFLATE,
    PAGE,
    POISON,
    SET_CONFIG,
    STATISTICS,
    Client,
)

# The folders of what a guest's process consists of.
FOLDERS = ("base", "balloon", "vhost", "channel", "process")
HEADERS = [path for it in FOLDERS for path in glob.glob(f"{linux_kit.MONITOR}/backends/{it}/*.h")]

# A struct that is one field here: a client's message.
WHOLE = ("message",)

# Bytes of a message's head, and of a number of each type.
HEAD = 12
NUMBERS = {
    "bool": 1,
    "uint8_t": 1,
    "uint16_t": 2,
    "int": 4,
    "enum": 4,
    "uint32_t": 4,
    "uint64_t": 8,
    "size_t": 8,
}

# Fields that there are once: of all others there are two, and one says which counts.
ONCE = ("kept.", "room.")

BODY = re.compile(r"^struct (\w+) \{(.*?)\};", re.M | re.S)
DECLARATION = re.compile(r"\s*((?:struct |enum )?\w+)\s(.*)", re.S)


@functools.cache
def structs():
    """Returns the declarations of each struct of the headers, as pairs of a type and a name."""
    found = {}
    for path in HEADERS:
        with open(path, encoding="utf-8") as header:
            text = re.sub(r"/\*.*?\*/", "", header.read(), flags=re.S)
        for name, body in BODY.findall(text):
            parts = [
                DECLARATION.match(it).groups() for it in body.split(";") if DECLARATION.match(it)
            ]
            found[name] = [(of, it.strip()) for of, names in parts for it in names.split(",")]
            if name == "counters":
                found[name] = [
                    ("uint64_t", it)
                    for it in re.findall(r"COUNT\((\w+)\)", text.split("HINT_COUNTERS")[0])
                ]
    return found


def leaves(struct, name="", expression="", arrays=()):
    """Yields each field below a struct: its name, its type, its C expression, and those of the
    arrays of structs that it is in."""
    for of, declared in structs()[struct]:
        own, count = re.match(r"(\w+)(?:\[(.*)\])?", declared).groups()
        if own == "unused":
            continue
        inner, here = of.removeprefix("struct "), f"{expression}.{own}"
        if inner not in structs() or inner in WHOLE:
            yield (name + own, of, here, arrays)
        else:
            yield from leaves(
                inner,
                f"{name}{own}.",
                here + ("[0]" if count else ""),
                arrays + ((here,) if count else ()),
            )


def layout_program():
    """Returns a C program that says where each field lies, how large it is, and how many there are
    of it with which distance."""
    lines = []
    for name, of, expression, arrays in leaves("kept_file"):
        its = lambda it: f"((struct kept_file *)0)->{it[1:]}"
        at = f"(size_t)&{its(expression)}, sizeof {its(expression)}"
        steps = [f"sizeof {its(it)}[0], sizeof {its(it)}" for it in arrays]
        lines.append(
            f'printf("{name} {of.split()[0]}{" %zu" * (2 + 2 * len(steps))}\\n", '
            f'{", ".join([at, *steps])});'
        )
    return (
        '#include "kept.h"\n#include <stdio.h>\nint main(void) {\n'
        + "\n".join(lines)
        + "\nreturn 0; }\n"
    )


@functools.cache
def layout():
    """Returns the place of each field: its type, its offset, its size, and the distance and the
    whole size of each array that it is in."""
    with tempfile.TemporaryDirectory() as folder:
        program = f"{folder}/layout"
        words = [
            linux_kit.need("cc", "gcc libc6-dev"),
            "-I",
            linux_kit.SHIM,
            "-I",
            linux_kit.HEADERS,
            "-I",
            f"{linux_kit.MONITOR}/backends/process",
            "-D_GNU_SOURCE=",
        ]
        subprocess.run(
            [*words, "-x", "c", "-o", program, "-"], input=layout_program(), text=True, check=True
        )
        said = subprocess.run([program], capture_output=True, text=True, check=True).stdout
    return {
        short(name): (of, *map(int, numbers))
        for name, of, *numbers in map(str.split, said.splitlines())
    }


def short(name):
    """Returns a field's name: of a state without `kept.states`, as the one that counts is meant."""
    return name.removeprefix("kept.states.")


class Kept:
    """What is kept of a guest, by its process."""

    def __init__(self, process):
        self.process, self.keeper = process, int(status_of(process)["PPid"])
        links = {
            it: os.readlink(f"/proc/{process}/fd/{it}") for it in os.listdir(f"/proc/{process}/fd")
        }
        (number,) = (it for it, link in links.items() if link.startswith("/memfd:kept"))
        self.file = os.open(f"/proc/{process}/fd/{number}", os.O_RDONLY)

    def read(self, of, at, size):
        """Returns a field: a number, a list of them, or its bytes where it has none."""
        data, step = os.pread(self.file, size, at), NUMBERS.get(of, 0)
        numbers = (
            [
                int.from_bytes(data[it : it + step], "little", signed=of == "int")
                for it in range(0, size, step)
            ]
            if step
            else data
        )
        return numbers[0] if step == size else numbers

    def __getitem__(self, name):
        """Returns the field of this name: of a queue or a region a list of all."""
        of, at, size, *arrays = layout()[name]
        if not name.startswith(ONCE):
            at, arrays = at + arrays[0] * (self["kept.counts"] & 1), arrays[2:]
        if not arrays:
            return self.read(of, at, size)
        return [self.read(of, at + step, size) for step in range(0, arrays[1], arrays[0])]

    def link(self, number):
        """Returns what a file is that is kept by its number."""
        return os.readlink(f"/proc/{self.keeper}/fd/{number}")

    def next_process(self):
        """Returns the process that the keeper has begun last, if one is there."""
        with open(f"/proc/{self.keeper}/task/{self.keeper}/children", encoding="ascii") as children:
            return next(map(int, children.read().split()), None)

    def kill(self, lender):
        """Kills the process, and waits until the next one has kept what it continues with. The
        lender stands still meanwhile: it says nothing."""
        stop(lender.process.pid) if lender.is_there() else None
        stop(self.process)
        turns = self["kept.turns"]
        os.kill(self.process, signal.SIGKILL)
        eventually(lambda: self["kept.turns"] > turns, "no other process takes over")
        self.process = self.next_process()

    def leave(self, lender):
        """Lets the lender go on."""
        go_on(lender.process.pid) if lender.is_there() else None
        os.close(self.file)


class Counting(Client):
    """A client that counts what it says. Its regions begin at the second page of their files."""

    messages = bytes = 0

    def __init__(self, *words):
        super().__init__(*words)
        self.offset = PAGE  # of a region in its file

    def fill(self, file):
        os.write(file, b"\xff" * PAGE)
        super().fill(file)

    def send(self, request, body=b"", files=(), flags=9):
        self.messages, self.bytes = self.messages + 1, self.bytes + HEAD + len(body)
        return super().send(request, body, files, flags)


class Life:
    """A guest of a lender, and what is kept of it."""

    def __init__(self, lender, strict):
        path = lender.demand(f"add a strict={strict}").split()[1]
        self.lender, self.client, self.files = (
            lender,
            Counting(path, lambda: lender.said()[-3:]),
            [],
        )
        lender.become("a", here=1)
        self.kept = Kept(process_of(lender, "a"))

    def comes(self):
        """Its driver is ready."""
        self.client.start_by_events(FEATURES | POISON)
        self.lender.become("a", ready=1)

    def is_used(self, number, count):
        """Waits until this number of requests of a queue were given back."""
        eventually(lambda: self.client.used_index(number) == count)

    def gives(self, pages, count):
        """Gives pages, with its request of this number."""
        self.client.post_pages(INFLATE, pages)
        self.is_used(INFLATE, count)

    def tells(self, count):
        """Tells statistics for this time, 100 pages are free, and 90 available; the next ones are
        asked for in vain. Those that are held the next process hears again."""
        self.client.write(
            BUFFERS + PAGE, struct.pack("<HQHQ", FREE, 100 * PAGE, AVAILABLE, 90 * PAGE)
        )
        self.client.describe(STATISTICS, 0, BUFFERS + PAGE, 20)
        self.client.publish(STATISTICS, 0), self.client.kick(STATISTICS)
        eventually(lambda: self.kept["notes.heard"] == count)
        self.lender.demand("a ask")
        self.is_used(STATISTICS, count)

    def takes(self, pages, count):
        """Takes pages, which the lender grants."""
        self.client.post_pages(DEFLATE, pages)
        self.is_used(DEFLATE, count)

    def writes(self, offset, number):
        """Writes a number into the configuration."""
        self.client.accepted(SET_CONFIG, struct.pack("<IIII", offset, 4, 0, number))

    def begins(self, data):
        """Sends bytes of a message, which have to be in the inbox."""
        self.client.socket.send(data)
        eventually(
            lambda: self.kept["kept.inbox.got"] + self.kept["kept.inbox.got_body"] == len(data)
        )

    def leave(self):
        """Goes."""
        self.kept.leave(self.lender)
        self.client.leave()
        for it in self.files:
            it.close()
