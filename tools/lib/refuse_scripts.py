"""The scripts of tools/refuse-memory: each event with the reply that it has where nothing is
refused."""

from dataclasses import dataclass

# The numbers that guests may have.
GUESTS = range(0, 2)


@dataclass
class Script:
    """A host, and its events with their replies."""

    name: str
    host: list
    text: str

    def pairs(self):
        """Returns each event's line and its reply."""
        return [tuple(it.split(" -> ")) for it in self.text.strip().splitlines()]


# A guest with a paced device writes, lends pages, takes some back and reports its free ones.
ONE_GUEST = Script(
    "one guest",
    ["host 64", "spare paced"],
    """
plug 64 8 1 -> guest 0
init 0 -> ready
alloc 0 0 0 -> page 16
write 0 16 0 aa -> ok
target 0 4 -> ok
inflate 0 4 -> posted 0 4
take 0 0 -> taken 0
work 0 -> worked 17 bare
work 0 -> worked 18 bare
work 0 -> worked 19 bare
work 0 -> worked 20 bare
finish 0 0 0 -> finished 0
reap 0 0 -> reaped 0 4
target 0 2 -> ok
deflate 0 2 -> posted 0 2
take 0 1 -> taken 0
finish 0 1 0 -> finished 0
reap 0 1 -> reaped 0 2
report 0 0 -> posted 0 32
take 0 4 -> taken 0
work 0 -> worked 32 bare
read 0 16 0 1 -> bytes aa
""",
)

# Two guests on a host with too few frames for what both write.
TWO_GUESTS = Script(
    "two guests",
    ["host 30", "spare immediate", "spare immediate"],
    """
plug 64 8 1 -> guest 0
plug 64 8 1 -> guest 1
init 0 -> ready
init 1 -> ready
frames -> frames used 26 free 4
alloc 0 0 4 -> page 16
write 0 16 0 01 -> ok
write 0 17 0 02 -> ok
alloc 1 0 4 -> page 16
write 1 16 0 03 -> ok
write 1 17 0 04 -> ok
write 1 18 0 05 -> no frame
free 0 0 16 4 -> ok
report 0 0 -> posted 0 48
take 0 4 -> taken 0
finish 0 4 0 -> finished 0
frames -> frames used 28 free 2
write 1 18 0 05 -> ok
reap 0 4 -> reaped 0 48
""",
)

# Each call and each change of a life, once.
EVERY_CALL = Script(
    "every call",
    ["host 64", "spare paced", "spare immediate"],
    """
plug 64 8 2 -> guest 0
init 0 -> ready
take 0 2 -> taken 0
memory 0 -> memory 196608 262144
ask 0 -> asked
stats 0 -> filled
alloc 0 1 0 -> page 16
write 0 16 0 aabb -> ok
read 0 16 0 4 -> bytes aabb0000
target 0 3 -> ok
inflate 0 3 -> posted 0 3
take 0 0 -> taken 0
work 0 -> worked 17 bare
work 0 -> worked 18 bare
work 0 -> worked 19 bare
finish 0 0 0 -> finished 0
reap 0 0 -> reaped 0 3
pages 0 lent -> pages 17-19
pages 0 ballooned -> pages 17-19
sweep 0 24 -> not ballooned
oom 0 1 -> posted 0 1
target 0 1 -> ok
deflate 0 1 -> posted 1 1
take 0 1 -> taken 0
finish 0 1 0 -> finished 0
reap 0 1 -> reaped 0 1
report 0 0 -> posted 0 32
take 0 4 -> taken 0
balance 16 -> targets 0
places 0 -> free 13 used 1 giving 0 lent 1 taking 1 stranded 0 reporting 32
balloon 0 -> ballooned 2 actual 2 target 0 status 15
backing 0 16 -> frame 13
free 0 0 16 0 -> ok
scribble 0 20 0 cc -> ok
reset 0 -> ok
init 0 -> ready
restart 0 -> ok
init 0 -> ready
alloc 0 0 4 -> page 16
write 0 16 0 dd -> ok
unplug 0 -> ok
plug 64 8 1 -> guest 0
init 0 -> ready
frames -> frames used 13 free 51
""",
)

SCRIPTS = [ONE_GUEST, TWO_GUESTS, EVERY_CALL]
