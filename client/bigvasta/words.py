"""Words on a terminal."""

import os
import sys

from bigvasta.statuses import Fault


class Unwritten(Fault):
    """What is printed can't be written: a disk is full."""


def open_streams():
    """Opens the standard streams that who started the program has closed: they have no words and
    take any."""
    for name, mode in (("stdin", "r"), ("stdout", "w"), ("stderr", "w")):
        if getattr(sys, name) is None:
            setattr(sys, name, open(os.devnull, mode, encoding="utf-8"))


def silence():
    """Has standard output take any words, and none of them written: Python would say once more as
    it ends that they can't be."""
    os.dup2(os.open(os.devnull, os.O_WRONLY), sys.stdout.fileno())


def write(texts):
    """Writes texts on standard output."""
    try:
        sys.stdout.writelines(texts)
        sys.stdout.flush()
    except BrokenPipeError:
        raise
    except OSError as fault:
        silence()
        raise Unwritten(f"standard output: {fault.strerror or fault}") from None


def plain(text):
    """Returns a line without what a terminal would obey: each such character as Python escapes
    it."""
    return "".join(
        it if it.isprintable() else it.encode("unicode_escape").decode("ascii") for it in text
    )


def table(rows, left=()):
    """Returns lines of columns, of which these begin at the left, and the others end at the
    right."""
    widths = [max(map(len, it)) for it in zip(*rows)]

    def cell(number, text):
        return text.ljust(widths[number]) if number in left else text.rjust(widths[number])

    return ["  ".join(cell(number, text) for number, text in enumerate(it)).rstrip() for it in rows]


def say(*lines):
    """Prints lines, whatever words of a host or of a file are in them."""
    write(["".join(f"{plain(it)}\n" for it in lines)])
