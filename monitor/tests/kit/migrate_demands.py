"""What tests demand of a guest that migrates, and of what its hosts hold."""

# What may be held afterwards, in parts of what was held before; and MiB of the guest without its
# balloon, of 256.
MORE, SMALL, LARGE = 1.02, 128, 192

# MiB of the file that the guest keeps; bytes a second of a migration that is to take a while, and
# of one that doesn't end.
KEPT, SLOWLY, HARDLY = 20, 32 << 20, 1 << 20


def with_balloon(pair, mib=SMALL):
    """Has the guest keep a file, and the rest of its memory in its balloon; returns the file's
    sum."""
    side = pair.source
    side.guest.do(f"fill kept {KEPT}")
    side.set_size(mib)
    side.settle()
    return side.guest.do("sums kept")


def demand_held(pair, before):
    """Demands that neither side holds more than was held, nor did as the migration went on."""
    held = [pair.most_held, *(it.held_mib() for it in (pair.source, pair.destination))]
    assert max(held) <= MORE * before, (before, held)


def demand_right(side, sums):
    """Demands that a guest has its file, and no trouble."""
    assert side.guest.do("sums kept") == sums
    assert side.guest.do("trouble") == []


def demand_obeys(side):
    """Demands that a guest follows its target: to more memory, and to less."""
    for mib in (LARGE, SMALL):
        side.set_size(mib)
        side.settle()
        assert side.size_mib() == mib


def demand_whole(side, sums, before):
    """Demands of a guest that continues where it was that it and its balloon are whole, and that
    no more is held."""
    side.await_status("running")
    assert side.held_mib() <= MORE * before
    assert side.size_mib() == SMALL
    demand_right(side, sums)
    demand_obeys(side)
    demand_right(side, sums)


def demand_twice(pair, sums, before):
    """Migrates a guest to the other side, and back: right, and with what was held before."""
    for _ in range(2):
        pair.migrate()
        demand_held(pair, before)
        demand_right(pair.destination, sums)
        pair.turn()
