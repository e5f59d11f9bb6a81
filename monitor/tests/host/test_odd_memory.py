"""A guest whose regions share words of the set of pages in its balloon: what one of them takes away
are its own pages."""

from vhost_client import ADD_MEM_REG, INFLATE, OFFERED, PAGE, REM_MEM_REG, Client

# The first two regions lie among 64 pages that begin at page 256, the third among the next ones.
STARTS, COUNT = (0x103, 0x124, 0x164), 27


class Odd(Client):
    """A client with regions that begin and end anywhere."""

    regions = tuple((start * PAGE, start << 28) for start in STARTS)
    pages_of_region = COUNT


# Of each region the first and the last page that its driver may give; the rings and what they name
# come before those of the first.
GIVEN = (
    STARTS[0] + 16,
    STARTS[0] + COUNT - 1,
    STARTS[1],
    STARTS[1] + COUNT - 1,
    STARTS[2],
    STARTS[2] + COUNT - 1,
)


def test_a_region_that_goes_takes_its_own_pages_out_of_the_balloon(lend):
    lender = lend(1, "--floor", "0", "--period", "100", "--step", "0")
    client = Odd(lender.add("a"), lambda: lender.said()[-3:])
    client.negotiate(protocol=OFFERED)
    client.add_memory()
    for number in range(4):
        client.place(number), client.enable(number)
    client.post_pages(INFLATE, GIVEN)
    lender.become("a", pages=3 * COUNT, ballooned=6)
    for region, left in ((1, 4), (2, 2)):
        client.accepted(REM_MEM_REG, client.region_body(region))
        lender.become("a", pages=left // 2 * COUNT, ballooned=left)
    for region in (1, 2):
        client.accepted(ADD_MEM_REG, client.region_body(region), [client.files[region]])
    lender.become("a", pages=3 * COUNT, ballooned=2)
    client.post_pages(INFLATE, GIVEN)
    lender.become("a", ballooned=6)
    client.leave()
