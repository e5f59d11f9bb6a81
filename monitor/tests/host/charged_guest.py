"""A guest in a process of its own, so that its memory is charged to the cgroup in which it begins.
It obeys lines on its standard input, and answers each by a line.

    charged_guest.py FOLDER NAME

    give FIRST COUNT [MOST]    puts these of its pages into its balloon, by requests of at most MOST
                               (256) pages; `done`
    take FIRST COUNT [MOST]    takes them out of it; `done`, once that is granted
    write FIRST COUNT          writes into each; `done`
    check FIRST COUNT          `right`, or the first page that hasn't what was last written into it
    turn FIRST COUNT [MOST]    all of these, one after the other

The first of its pages is 0: those are the pages of its second region, without the rings.
"""

import os
import sys
import types

from tenants import FREE, Guest, eventually
from vhost_client import DEFLATE, INFLATE, PAGE, Client

# Pages of each of its two regions, those with rings and buffers, and the most of a request.
GIVEN, OWN, OF_REQUEST = 4096, 64, 256


class Charged(Client):
    """A client with 32 MiB, of which it has nothing before it comes."""

    regions, pages_of_region = ((0x100000, 0x7F0000000000), (0x2000000, 0x7F1000000000)), GIVEN

    def fill(self, file):
        """Makes a region that has no page yet."""
        os.ftruncate(file, GIVEN * PAGE)

    def hold(self):
        """Writes into each page but those with rings and buffers."""
        for guest, _ in self.regions:
            for page in range(OWN, GIVEN):
                self.write(guest + page * PAGE, b"\xff" * PAGE)


class Obeying:
    """A guest that does what lines say."""

    def __init__(self, folder, name):
        lender = types.SimpleNamespace(folder=folder)
        self.guest = Guest(lender, name, {FREE: GIVEN}, client=Charged)
        self.client, self.first = self.guest.client, Charged.regions[1][0] // PAGE
        self.turns = 0
        self.client.hold()

    def post(self, number, first, count, most):
        """Has requests of a queue served, one after the other."""
        for begin in range(first, first + count, most):
            pages = range(begin, min(begin + most, first + count))
            (self.guest.give if number == INFLATE else self.guest.take)(
                [self.first + it for it in pages]
            )
            eventually(lambda: self.client.is_all_used(number), f"queue {number} hangs")
        return "done"

    def give(self, first, count, most=OF_REQUEST):
        """Puts pages into the balloon."""
        return self.post(INFLATE, first, count, most)

    def take(self, first, count, most=OF_REQUEST):
        """Takes pages out of the balloon."""
        return self.post(DEFLATE, first, count, most)

    def bytes_of(self, page):
        """Returns what is to be in a page in this turn."""
        return (page << 16 | self.turns & 0xFFFF).to_bytes(8, "little") * (PAGE // 8)

    def write(self, first, count):
        """Writes into pages."""
        self.turns += 1
        for page in range(first, first + count):
            self.client.write((self.first + page) * PAGE, self.bytes_of(page))
        return "done"

    def check(self, first, count):
        """Reads pages."""
        for page in range(first, first + count):
            if self.client.read((self.first + page) * PAGE, PAGE) != self.bytes_of(page):
                return f"page {page} is wrong"
        return "right"

    def turn(self, first, count, most=OF_REQUEST):
        """Gives pages, takes them again, writes and reads them."""
        self.give(first, count, most), self.take(first, count, most), self.write(first, count)
        return self.check(first, count)


def main(folder, name):
    """Obeys until there is nothing more."""
    guest = Obeying(folder, name)
    print("here", flush=True)
    for line in sys.stdin:
        word, *numbers = line.split()
        print(getattr(guest, word)(*map(int, numbers)), flush=True)


if __name__ == "__main__":
    main(*sys.argv[1:])
