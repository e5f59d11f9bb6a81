"""Recorded days of three guests of 128 pages, on a strict host that lends them 256: after each of
their moments the host wants and has in each balloon what a replay of the day by `bigvasta plan`
does. A test plays the guests' processes, whose drivers do at once what they are told."""

import pytest
from bigvasta.plan import library as loading
from bigvasta.plan import replay as replaying
from bigvasta.plan.lender import Lender, Terms
from bigvasta.plan.reading import read
from linux_kit import built
from played import ORDER_GRANT, ORDER_LOOK, ORDER_TARGET, Message, Played
from tenants import AVAILABLE, FREE, eventually
from vhost_client import PAGE

KILLS = 10

# Counters of a report by their places.
STATISTICS = 17

PAGES, FRAMES, RESERVE = 128, 256, 10

# What each line of the day says: its second, its guest, pages that are used, and page cache, and
# how many processes were killed for lack of memory. Unused memory is given, then page cache, then
# reserves; a working set moves; at last a guest is pressed.
ROWS = (
    (0, "a", 20, 40, 0),
    (0, "b", 20, 0, 0),
    (0, "c", 5, 0, 0),
    (10, "b", 70, 40, 0),
    (20, "c", 60, 40, 0),
    (30, "a", 20, 90, 0),
    (40, "b", 100, 10, 0),
    (50, "a", 70, 0, 0),
    (60, "b", 30, 30, 0),
    (70, "c", 30, 80, 0),
    (80, "a", 20, 75, 0),
    (90, "a", 70, 0, 1),
)

# A day of a short host, and its overdraft.
OVERDRAFT = 16
SHORT = (
    (0, "a", 60, 0, 0),
    (0, "b", 60, 0, 0),
    (0, "c", 60, 0, 0),
    (10, "a", 110, 0, 0),
    (10, "b", 90, 0, 0),
    (20, "c", 20, 0, 0),
)
TERMS = {"a": ("weight=2", "2,0"), "b": ("", "1,0"), "c": ("priority=1", "1,1")}
HEAD = "guest,seconds,size,used,free,ballooned,target,oom_kills,weight,priority"


class Obedient(Played):
    """The process of a guest that uses as many pages as it is set to, and at once puts into its
    balloon what it is told."""

    def __init__(self, lender, name, used, cached):
        self.used, self.cached, self.kills, self.told = used, cached, 0, 0
        super().__init__(lender, name, pages=PAGES, obeyed=1)

    def figures(self):
        """Returns what its statistics say."""
        available = max(PAGES - self.used - self.its.get("ballooned", 0), 0)
        free = max(available - self.cached, 0)
        return (FREE, free * PAGE), (AVAILABLE, available * PAGE), (KILLS, self.kills)

    def report(self, number=0, **changed):
        """Reports, with new statistics."""
        with self.lock:
            self.its |= changed
            self.told += 1
            message = Message(version=1, kind=9, number=number, **self.its)
            message.held_kib = (PAGES - self.its.get("ballooned", 0)) * PAGE // 1024
            message.ballooned_then = message.actual = message.ballooned
            message.counters[STATISTICS] = self.told
            message.figure_count = len(self.figures())
            for place, (tag, value) in enumerate(self.figures()):
                message.figures[place].tag, message.figures[place].value = tag, value
            self.channel.send(bytes(message))

    def obey(self, order):
        """Does what an order says."""
        ballooned, held = (self.its.get(it, 0) for it in ("ballooned", "held_pages"))
        if order.kind == ORDER_LOOK:
            self.report(order.number)
        elif order.kind == ORDER_TARGET:
            self.report(target=order.target, obeyed=order.target + 1)
            self.go_on()
        elif order.kind == ORDER_GRANT and held and order.wait == self.its["held_wait"]:
            self.report(ballooned=ballooned - held, held_pages=0)
            self.go_on()

    def go_on(self):
        """Gives or takes what its target says; and takes what it uses and doesn't have."""
        ballooned, target = (self.its.get(it, 0) for it in ("ballooned", "target"))
        wanted = min(target, PAGES - self.used) if target <= ballooned else target
        if self.its.get("held_pages", 0) == 0 and wanted > ballooned:
            self.report(ballooned=wanted)
        elif self.its.get("held_pages", 0) == 0 and wanted < ballooned:
            self.deflates(ballooned - wanted)

    def use(self, used, cached, kills):
        """It uses this from now on."""
        self.used, self.cached, self.kills = used, cached, kills
        self.report()
        self.go_on()

    def run(self):
        """Obeys until its end."""
        try:
            while got := self.channel.recv(len(bytes(Message()))):
                self.obey(Message.from_buffer_copy(got))
        except OSError:
            pass


class Seen(Lender):
    """A replay that is noted at each moment: the target of each guest, and what is in its
    balloon."""

    def settle(self):
        super().settle()
        balloons = (it.ballooned for it in self.seats.reports)
        names = [it.name for it in self.guests]
        self.seen_at[self.now] = dict(zip(names, zip(self.targets, balloons)))


@pytest.fixture
def planned(tmp_path, monkeypatch):
    """Replays the lines of a day under such terms; returns how it is before the next line, by the
    seconds of each."""

    def seen(rows, **terms):
        last = {row[1]: row for row in rows}
        lines = (
            f"{name},{at},{PAGES * PAGE},{used * PAGE},{(PAGES - used - cached) * PAGE},0,0,{kills}"
            f",{TERMS[name][1]}"
            for at, name, used, cached, kills in [*rows, *((99, *it[1:]) for it in last.values())]
        )
        path = tmp_path / "day.csv"
        path.write_text("\n".join((HEAD, *lines)))
        library = loading.load(built("libvb.so"))
        Seen.seen_at = {}
        monkeypatch.setattr(replaying, "Lender", Seen)
        replaying.replay(library, read(library, str(path)), Terms(FRAMES, **terms))
        times = sorted({row[0] for row in rows})
        return {
            at: Seen.seen_at[max(it for it in Seen.seen_at if it < until)]
            for at, until in zip(times, [*times[1:], 99])
        }

    return seen


def settle(lender, wanted):
    """Waits until each guest has the target that is wanted, and that in its balloon, and keeps it
    for some looks."""

    def seen():
        return {name: (it["target"], it["ballooned"]) for name, it in lender.guests().items()}

    def differs():
        return f"the host has {seen()} as targets and in balloons, and the replay {wanted}"

    eventually(lambda: seen() == wanted, differs)
    looks = lender.counters()["looks"]
    eventually(lambda: lender.counters()["looks"] > looks + 3)
    assert seen() == wanted, differs()


# Of these days one is as the replay: the host decides whenever a report has come, and what it
# decides between two reports of a line may stay. Seconds for a line, but of the last day.
DAYS, SECONDS = 4, 15


def play(lender, rows, planned):
    """Plays the day: at the end of each moment it is as the replay."""
    guests, last = {}, {row[0]: number for number, row in enumerate(rows)}
    try:
        for _, name, used, cached, _ in rows[:3]:
            guests[name] = Obedient(lender, name, used, cached)
            lender.demand(f"terms {name} strict=1 {TERMS[name][0]}".strip())
            lender.become(name, spare=PAGES - used)
        lender.set_budget(FRAMES)
        settle(lender, planned[0])
        for number, (at, name, *its) in enumerate(rows[3:], 3):
            guests[name].use(*its)
            if last[at] == number:
                settle(lender, planned[at])
    finally:
        for it in guests.values():
            it.leave()


def play_one(lend, monkeypatch, rows, planned, *words):
    """Plays days until one is as the replay."""
    options = ("--floor", "0", "--period", "100", "--step", "0", "--strict", *words)
    for number in range(1, DAYS + 1):
        lender = lend(2 * FRAMES * PAGE >> 20, *options)
        try:
            with monkeypatch.context() as patched:
                if number < DAYS:
                    patched.setattr("waiting.PATIENCE", SECONDS)
                return play(lender, rows, planned)
        except AssertionError:
            if number == DAYS:
                raise


def test_a_host_wants_of_its_guests_what_a_replay_does(lend, planned, monkeypatch):
    seen = planned(ROWS, reserve=RESERVE)
    play_one(lend, monkeypatch, ROWS, seen, "--reserve", str(RESERVE))


def test_a_host_lends_its_overdraft_as_a_replay_does(lend, planned, monkeypatch):
    """Of 256 pages the guests use 260: what can't be given is overdrawn a second later. It is paid
    back by what one of them uses no longer."""
    seen = planned(SHORT, overdraft=OVERDRAFT)
    assert seen[10] == {"a": (18, 18), "b": (38, 38), "c": (68, 68)}
    play_one(lend, monkeypatch, SHORT, seen, "--reserve", "0", "--overdraft", str(OVERDRAFT))
