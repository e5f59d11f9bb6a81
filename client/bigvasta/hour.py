"""The last hour of a host: what it was to hold, held, lent and lacked, by samples."""

from collections import deque

from bigvasta.sizes import mebibytes

# Seconds, and between two samples.
HOUR, EVERY = 3600, 10

SERIES = ("budget", "held", "lent", "missing")


class Hour:
    """Samples, the oldest first; None in the place of what a host had that didn't answer."""

    def __init__(self):
        self.samples = deque(maxlen=HOUR // EVERY + 1)

    def note(self, now, status):
        """Notes a sample: the status of this moment, or None."""
        self.samples.append((now, status and [status["host"][it] for it in SERIES]))

    def lines(self, now):
        """Returns a line for each of the series, as points: how much of the hour lay before each,
        and how large it was by the largest one, whose size is said, too."""
        sizes = [it for _, sizes in self.samples if sizes for it in sizes]
        most = max([1, *sizes])
        places = [(round(1 - (now - at) / HOUR, 4), sizes) for at, sizes in self.samples]
        points = {
            name: [[at, round(sizes[number] / most, 4)] if sizes else None for at, sizes in places]
            for number, name in enumerate(SERIES)
        }
        return {"most": f"{mebibytes(most)} MiB", "points": points}
