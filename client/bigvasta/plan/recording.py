"""What is read of a recorded day, line by line."""

from bigvasta.plan.days import Recorded, Use, add_use, day_of
from bigvasta.plan.telling import Stalls, cached_of, terms_of
from bigvasta.sizes import PAGE
from bigvasta.statuses import Usage


class Guest:
    """What was read of a guest until now."""

    def __init__(self, name, pages, terms):
        self.name, self.pages, self.terms, self.uses = name, pages, terms, []
        self.stalls, self.pressed_until, self.end, self.line = Stalls(), 0.0, None, None

    def demand(self, line, seconds, pages):
        """Refuses a line that can't come after those before."""
        if pages != self.pages:
            line.refuse(
                f"size: {self.name} had {self.pages * PAGE} bytes before, and {pages * PAGE} now"
            )
        if terms_of(line) != self.terms:
            line.refuse(f"{self.name} had other terms before")
        if self.end is not None and seconds <= self.end:
            line.refuse(
                f"seconds: {seconds:.12g} isn't after {self.end:.12g}, the time of {self.name} "
                "before"
            )

    def relax(self, seconds):
        """Its work doesn't wait any longer, if that ends before a moment."""
        if self.uses and self.uses[-1].pressed and self.pressed_until < seconds:
            add_use(self.uses, self.uses[-1]._replace(seconds=self.pressed_until, pressed=False))

    def add(self, calls, line, used):
        """Adds a line, by which it uses this number of pages."""
        seconds = line.seconds()
        self.relax(seconds)
        self.pressed_until = self.stalls.hear(calls, line, seconds)
        cached, pressed = cached_of(line, used, self.pages), self.pressed_until > seconds
        add_use(self.uses, Use(seconds, used, cached, pressed))
        self.end, self.line = seconds, line

    def recorded(self):
        """Returns its day."""
        if self.end == self.uses[0].seconds:
            self.line.refuse(
                f"{self.name} has this row alone: a guest's last row says when it goes"
            )
        return Recorded(self.name, self.pages, tuple(self.uses), self.end, self.terms)


class Recording:
    """What was read of the guests until now."""

    def __init__(self, calls):
        self.calls, self.guests = calls, {}

    def add(self, line, used_by):
        """Adds a line of a guest; `used_by` says of the line and the bytes of the guest's memory
        how many bytes are used."""
        name, seconds, pages = line.text("guest"), line.seconds(), line.memory()
        used = -(-used_by(line, pages * PAGE) // PAGE)
        if name not in self.guests:
            self.guests[name] = Guest(name, pages, terms_of(line))
        self.guests[name].demand(line, seconds, pages)
        self.guests[name].add(self.calls, line, used)

    def day(self, path):
        """Returns the day of all guests."""
        if not self.guests:
            raise Usage(f"{path}: there are no rows")
        return day_of([it.recorded() for it in self.guests.values()])
