"""The scripts of tools/measure with single calls, on guests of each size."""

from measure_loads import alone, lent

# Pages that no processor is ever handed.
RESERVED = 16


# The calls of the second table: each on a script that begins with a guest of some pages.


def calls(count, start, events):
    """Returns a function from a size to the script with this start and `count` of these events."""

    def of_size(size):
        script = alone(size)
        script.start += start(size) if callable(start) else start
        script.events = events(size) if callable(events) else events
        return script

    return count, of_size


def every_second(size):
    """Returns the lines after which every second page of a guest is free."""
    taken = ["alloc 0 0 0"] * (size - RESERVED)
    return taken + [f"free 0 0 {it} 0" for it in range(RESERVED + 1, size, 2)]


def posted(count):
    """Returns the lines of `count` requests of two pages."""
    return ["inflate 0 2"] * count


def finished(count):
    """Returns the calls that finish `count` taken requests, the oldest first."""
    return calls(count, posted(count) + ["take 0 0"] * count, ["finish 0 0 0"] * count)


def frees(size):
    """Returns the lines after which the first 32 pages that may be held are held one by one."""
    return ["alloc 0 0 0"] * min(32, size - RESERVED)


# A processor is handed the lowest pages first: its first block of eight begins after the reserved
# pages.
BLOCK = ["alloc 0 0 3", f"write 0 {RESERVED} 0 0000"]

CALLS = {
    "inflate of two pages": calls(8, [], posted(8)),
    "inflate of 256 pages, every second one free": calls(1, every_second, ["inflate 0 256"]),
    "deflate of two pages": calls(8, lent(0, 32) + ["target 0 0"], ["deflate 0 2"] * 8),
    "take": calls(8, posted(8), ["take 0 0"] * 8),
    "finish, 4 chains taken": finished(4),
    "finish, 16 chains taken": finished(16),
    "reap": calls(8, posted(8) + ["take 0 0", "finish 0 0 0"] * 8, ["reap 0 0"] * 8),
    "alloc of one page": calls(32, [], ["alloc 0 0 0"] * 32),
    "free of one page": calls(32, frees, [f"free 0 0 {RESERVED + it} 0" for it in range(32)]),
    "write of two bytes": calls(8, BLOCK, [f"write 0 {RESERVED} 0 abcd"] * 8),
    "read of two bytes": calls(8, BLOCK, [f"read 0 {RESERVED} 0 2"] * 8),
    "places": calls(8, posted(1), ["places 0"] * 8),
    "frames": calls(8, [], ["frames"] * 8),
}
