"""A recorded day of a strict host beside a replay of it: what its guests asked for and gave is done
as it was recorded, and the library says when each is granted what it asks for. It has to be as the
host granted it, within the time between two looks."""

from collections import deque
from typing import NamedTuple

from bigvasta.plan.seats import Seats
from bigvasta.sizes import PAGE
from bigvasta.statuses import Usage


class Course(NamedTuple):
    """What a guest was granted in all at each look, in pages, by the host and by the replay; and
    for how many seconds it waited."""

    name: str
    granted: list
    replayed: list
    waited: float
    replay_waited: float

    def apart(self):
        """Returns how many looks the two are apart at most: neither grants a page earlier or later
        than the other by more."""
        looks = len(self.granted)
        return next(
            it
            for it in range(looks + 1)
            if within(self.granted, self.replayed, it) and within(self.replayed, self.granted, it)
        )


class Check(NamedTuple):
    """The courses of all guests, and the seconds between two looks."""

    look: float
    courses: list

    def agrees(self):
        """Whether the replay grants all as the host did."""
        return all(it.apart() <= 1 for it in self.courses)


def within(first, second, looks):
    """Whether the second has at each look what the first had this number of looks before."""
    return all(one <= other for one, other in zip(first, second[looks:]))


class Guest:
    """What a guest of a replay is still to do: to give these pages, and to ask for these, one part
    after the other."""

    def __init__(self, name, number, look):
        self.name, self.number, self.look = name, number, look
        self.owes, self.asks, self.asked = (
            0,
            deque([look.asked] if look.asked else ()),
            look.granted,
        )
        self.total, self.granted, self.replayed, self.waited, self.replay_waited = (
            look.granted,
            [],
            [],
            0.0,
            0.0,
        )

    def follow(self, look, at):
        """Notes what has happened since the look before."""
        before, self.look = self.look, look
        given = (look.granted - before.granted) - (look.loan - before.loan)
        if look.granted < before.granted or given < 0:
            raise Usage(
                f"{self.name} at {at:.12g}: its loan grows by more than it was granted: a guest "
                "that isn't strict can't be compared"
            )
        self.owes += given
        done = max(look.granted - before.wanted(), 0)
        left = look.wanted() - before.wanted() - done
        self.asks += [it for it in (done, left) if it > 0]
        return max(-left, 0)


class Follower:
    """A host whose guests do what was recorded of them. Each is to have all its pages in its
    balloon, so that each deflate asks for all that it takes, and waits for its turn."""

    def __init__(self, library, names, sizes):
        self.numbers, self.guests = {it: number for number, it in enumerate(names)}, {}
        self.seats = Seats(library, len(sizes), 0)

    def come(self, name, look):
        """A guest is there, with what is lent to it."""
        number = self.numbers[name]
        self.seats.take_over(number, look.size, look.size - look.loan)
        self.seats.want(number, look.size)
        self.seats.read(number)
        self.guests[name] = Guest(name, number, look)

    def see(self, moment):
        """Notes what has happened until a moment, and has its budget hold."""
        self.seats.budget(moment.frames)
        for name in self.guests.keys() - moment.guests.keys():
            self.seats.arrive(self.guests.pop(name).number, 0)
        for name, look in moment.guests.items():
            if name not in self.guests:
                self.come(name, look)
                continue
            self.withdraw(self.guests[name], self.guests[name].follow(look, moment.seconds))

    def withdraw(self, guest, pages):
        """A guest doesn't ask for its last pages any longer; those that it has got of them it gives
        back."""
        while pages > 0 and guest.asks:
            part = min(pages, guest.asks[-1])
            guest.asks[-1] -= part
            pages -= part
            if guest.asks[-1] == 0:
                guest.asks.pop()
        guest.asked -= pages
        report = self.seats.reports[guest.number]
        part = min(pages, report.held)
        report.held -= part
        self.seats.tell(guest.number)
        guest.owes += pages - part
        guest.total -= pages - part

    def give(self, guest):
        """A guest gives what it is to give, as far as it has that already."""
        part = min(guest.owes, self.seats.lent(guest.number))
        if part > 0:
            self.seats.give(guest.number, part)
            guest.owes -= part
        return part > 0

    def ask(self, guest, waits, fits):
        """A guest asks for its next part, once it has got those before: one that the host has
        granted until now, or one that waits there, too; and where it has to fit for no more pages
        than there is room for."""
        report = self.seats.reports[guest.number]
        if (
            report.held
            or not guest.asks
            or (not waits and guest.asked + guest.asks[0] > guest.look.granted)
        ):
            return False
        # What it gave between its asks may be wanted first.
        part = min(guest.asks[0], report.ballooned, self.seats.room() if fits else guest.look.size)
        if part == 0:
            return False
        guest.asks[0] -= part
        if guest.asks[0] == 0:
            guest.asks.popleft()
        guest.asked += part
        self.seats.hold(guest.number, part)
        return True

    def guest_of(self, number):
        """Returns the guest at this place."""
        return next(it for it in self.guests.values() if it.number == number)

    def take_all(self):
        """Guests take what they were granted; returns whether any does."""
        granted = self.seats.granted()
        for number in granted:
            self.guest_of(number).total += self.seats.take(number)
        return bool(granted)

    def grant_before(self, before, frames):
        """Grants what the host has granted until now, on the budget of the look before: when it
        fell since then isn't recorded."""
        took = self.take_all()
        while (first := self.seats.first()) is not None:
            asked, guest = self.seats.asked(first), self.guest_of(first)
            wanted = self.seats.owed() + asked
            if wanted > before or guest.total + asked > guest.look.granted:
                break
            self.seats.budget(wanted)
            self.seats.budget(frames)
            took |= self.take_all()
        return took

    def rest(self, before, frames):
        """Has all be done that can be on these budgets, of the look before and of now: what the
        host has granted until now was asked for before what waits there, and who has waited longest
        has asked first. How the host has parted what it granted isn't recorded: first it is what
        there is room for.
        """
        guests = sorted(self.guests.values(), key=lambda it: -it.look.waiting)
        for waits, fits in ((False, True), (False, False), (True, False)):
            going = True
            while going:
                going = self.take_all()
                going |= any([self.give(it) for it in guests])
                going |= any([self.ask(it, waits, fits) for it in guests])
                going |= not waits and before > frames and self.grant_before(before, frames)

    def note(self, seconds):
        """Notes where each guest is at a look, before this time passes."""
        for it in self.guests.values():
            it.granted.append(it.look.granted)
            it.replayed.append(it.total)
            it.waited += seconds if it.look.asked else 0
            it.replay_waited += seconds if self.seats.reports[it.number].held or it.asks else 0


def check(library, moments):
    """Returns how a replay of these moments compares with them."""
    sizes = {name: look.size for moment in moments for name, look in moment.guests.items()}
    follower, all_guests = Follower(library, list(sizes), list(sizes.values())), {}
    times = [it.seconds for it in moments]
    steps = [after - before for before, after in zip(times, times[1:])]
    before = 0
    for moment, seconds in zip(moments, [*steps, 0]):
        follower.see(moment)
        follower.rest(before, moment.frames)
        before = moment.frames
        follower.note(seconds)
        all_guests |= follower.guests
    courses = [
        Course(it.name, it.granted, it.replayed, it.waited, it.replay_waited)
        for it in all_guests.values()
    ]
    return Check(min(steps, default=0), courses)


def lines(found):
    """Returns a line for each guest, and one that says whether the two agree."""
    yield f"{'guest':<16}{'granted':>9}{'replayed':>10}{'waited':>9}{'replayed':>10}{'apart':>8}"
    for it in found.courses:
        granted, replayed = (
            f"{(course[-1] - course[0]) * PAGE / (1 << 20):.1f}"
            for course in (it.granted, it.replayed)
        )
        yield (
            f"{it.name:<16}{granted:>9}{replayed:>10}{it.waited:>9.1f}{it.replay_waited:>10.1f}"
            f"{it.apart() * found.look:>8.1f}"
        )
    verdict = (
        "the replay grants the same"
        if found.agrees()
        else "the replay differs: it doesn't grant the same"
    )
    yield f"{verdict}, within {found.look:.3g} s, the time between two looks"


def document(found):
    """Returns the same as an object: sizes in bytes, times in seconds."""
    guests = [
        {
            "guest": it.name,
            "granted": (it.granted[-1] - it.granted[0]) * PAGE,
            "replayed": (it.replayed[-1] - it.replayed[0]) * PAGE,
            "waited": it.waited,
            "replay_waited": it.replay_waited,
            "apart": it.apart() * found.look,
        }
        for it in found.courses
    ]
    return {"look": found.look, "agrees": found.agrees(), "guests": guests}
