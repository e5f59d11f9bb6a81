"""A strict day of a host that is upgraded again and again: by `bigvasta upgrade` the lender and its
guests' processes become the programs that are installed now, whose version is another each time.
Linux and its VMM notice nothing."""

import time

from host_checks import finish, pages_moved
from host_killed import GOES_ON_IN, Killer, Town, check_looks, note
from host_strict import BUDGET, LEFT, MEMORY
from installed import OLDER, bigvasta, install, older_program, version
from linux_kit import demand

# How often the host is upgraded, seconds between two upgrades, and the most of such a day.
UPGRADES, EVERY, LONGEST_DAY = 10, 2, 300


class Upgraded(Town):
    """All guests of a host of which one version is installed after the other."""

    def __init__(self, vmm, program, folder, *words):
        self.programs = {version(): program, OLDER: older_program()}
        self.installed, self.upgrades = f"{folder}/installed", 0
        super().__init__(vmm, install(self.programs[OLDER], self.installed), folder, *words)

    def versions(self):
        """Returns the versions of what is installed now, and of what is next."""
        return (OLDER, version()) if self.upgrades % 2 == 0 else (version(), OLDER)

    def upgrade(self):
        """Installs the other version, and has the host and its guests become that."""
        before, after = self.versions()
        with self.changes:
            self.note_counters()
            processes = self.serving()
            install(self.programs[after], self.installed)
            ran = bigvasta(f"{self.host.folder}/.control", "upgrade", limit=GOES_ON_IN)
            wanted = {f"{it}: {before} -> {after}" for it in ("host", *processes)}
            demand(
                (ran.returncode, set(ran.stdout.splitlines()), ran.stderr) == (0, wanted, ""),
                f"an upgrade says {ran}",
            )
            demand(
                self.host.lines.next(time.monotonic() + GOES_ON_IN) == "ready",
                "the next program isn't ready",
            )
            stay = [name for name, it in self.serving().items() if it == processes[name]]
            demand(not stay, f"the processes of {stay} stay")
            self.upgrades += 1

    def serving(self):
        """Returns the process of each guest."""
        return {name: it["process"] for name, it in self.host.guests().items()}


def upgrades_run(bench):
    """Guests at work on a strict host that is upgraded ten times."""
    guests, budget = bench.crowd(4, BUDGET)
    with bench.town(budget, ("--strict",), kind=Upgraded) as town:
        town.settle_in(guests, MEMORY)
        said, upgrader, waits = (
            [it.guest.why() for it in town.members],
            Killer(town, lambda: EVERY, town.upgrade),
            [],
        )
        try:
            town.live(
                LONGEST_DAY,
                1,
                budget - LEFT * len(guests),
                lambda _: note(town, waits) or town.upgrades >= UPGRADES and town.ended.set(),
            )
        finally:
            upgrader.end()
        town.ended.clear()
        demand(town.upgrades >= UPGRADES, f"only {town.upgrades} upgrades")
        most = check_looks(town, budget)
        finish(town)
        town.note_counters()
        counted, checked = town.counted, sum(it.checked for it in town.members)
        demand(
            counted["gone"] == counted["refused"] == 0, f"guests went, or were refused: {counted}"
        )
        demand(
            [it.guest.why() for it in town.members] == said,
            f"a VMM says {[it.guest.why() for it in town.members]}",
        )
        demand(counted["grants"] > 0 and checked > len(guests), f"{checked} sums: {counted}")
        looks = f"{len(town.samples)} looks, 0 above, peak {most:.0f} of {budget} MiB"
        return (
            f"{town.upgrades} upgrades; {looks}; {counted['grants']} grants, {pages_moved(town)} "
            f"pages moved, {checked} sums right"
        )
