"""What `bigvasta watch` shows, as lines of a given width: made of a status alone, so that it is the
same for each terminal."""

from typing import NamedTuple

from bigvasta.sizes import mebibytes
from bigvasta.waits import wait_of, words_of

# Characters of a bar: held and not to spare, held and to spare, lent and not held, neither; and
# what a target or a budget leaves.
BLOCKS, PLAIN = "█▒░ │", "#=. |"

LEAST_WIDTH, NAME_WIDTH, NUMBER_WIDTH = 60, 12, 7

SORTS = ("name", "held", "waits")

# What is counted of the guests, where there are any.
COUNTS = ("waiting", "silent", "uncooperative", "pressed", "migrating")

# What is shown of each guest in numbers.
NUMBERS = ("held", "loan", "target", "spare")


class Line(NamedTuple):
    """A line, and how it is drawn: plain, a head, or a warning."""

    text: str
    kind: str = "plain"


class Shown(NamedTuple):
    """What the keys have chosen."""

    sort: str = "name"
    first: int = 0
    paused: bool = False
    blocks: str = BLOCKS


class Bar(NamedTuple):
    """Shares of a whole, in the order of the blocks, and where the mark is, or None."""

    parts: tuple
    mark: object

    def drawn(self, width, blocks):
        """Returns it as characters."""
        text, at = "", 0.0
        for share, block in zip(self.parts, blocks):
            at += share
            text += block * (round(min(at, 1) * width) - len(text))
        text = text.ljust(width, blocks[3])
        if self.mark is None or not 0 <= self.mark < 1:
            return text
        place = min(round(self.mark * width), width - 1)
        return text[:place] + blocks[4] + text[place + 1 :]


def bar_of_guest(guest):
    """Returns the bar of a guest that has memory."""
    memory, held = guest["memory"], min(guest["held"], guest["memory"])
    spare = min(max(guest["spare"] - guest["ballooned"], 0), held)
    lent = max(min(guest["loan"], memory) - held, 0)
    mark = (memory - guest["target"]) / memory if guest["target"] else None
    return Bar(((held - spare) / memory, spare / memory, lent / memory), mark)


def guest_bar(guest, scale, width, blocks):
    """Returns the bar of a guest, as wide as its memory is of the largest guest's."""
    own = max(1, round(width * guest["memory"] / scale)) if scale and guest["memory"] else 0
    return bar_of_guest(guest).drawn(own, blocks) + "]" if own else ""


def promised_to(guests):
    """Returns how much memory guests were promised together."""
    return sum(it["memory"] for it in guests)


def bar_of_host(host, guests):
    """Returns the bar of the sums, with the budget."""
    scale = max(promised_to(guests), host["budget"], 1)
    lent = max(host["lent"] - host["held"], 0)
    return Bar((host["held"] / scale, 0, lent / scale), host["budget"] / scale)


def head_line(host, guests):
    """Returns the line of the sums."""
    budget, missing = host["budget"], host["missing"]
    most = host.get("most_budget", budget)
    sizes = {"held": host["held"], "lent": host["lent"], "promised": promised_to(guests)}
    sizes |= {"missing": missing} if missing else {}
    of_most = f" of {mebibytes(most)}" if most > budget else ""
    text = "".join(f"  {name} {mebibytes(it)}" for name, it in sizes.items())
    tier = f"  tier {host['tier']}" if "tier" in host else ""
    is_warning = host["held"] > budget or missing
    kind = "warning" if is_warning else "head"
    return Line(f"budget {mebibytes(budget)}{of_most}{text} MiB{tier}", kind)


def host_lines(host, guests, width, shown):
    """Returns the lines about the host: the sums, and their bar."""
    head = head_line(host, guests)
    bar = bar_of_host(host, guests).drawn(width - 2, shown.blocks)
    return [Line(head.text[:width], head.kind), Line(f"[{bar}]", head.kind)]


def state_line(host, shown, fault):
    """Returns the line about who waits, or why all that is shown is old."""
    if fault:
        return Line(f"no host answers, and this was its last word: {fault}", "warning")
    names = [(host.get(it), it) for it in COUNTS]
    parts = [
        f"{host['guests']} guests",
        *(f"{count} {name}" for count, name in names if count),
        f"by {shown.sort}",
    ]
    return Line(
        ", ".join(parts) + (", paused" if shown.paused else ""),
        "warning" if host["waiting"] or host["uncooperative"] else "plain",
    )


def ordered(guests, sort):
    """Returns the guests in the order that was chosen."""
    keys = {
        "name": lambda it: it["name"],
        "held": lambda it: (-it["held"], it["name"]),
        "waits": lambda it: (-it["waits"], it["name"]),
    }
    return sorted(guests, key=keys[sort])


def numbers_of(guest):
    """Returns the numbers of a guest."""
    return [mebibytes(guest[it]) for it in NUMBERS]


def wait_line(guest):
    """Returns what a guest waits for, and whether it migrates; or that it is absent."""
    words = words_of(guest) or ("absent" if guest["state"] == "absent" else "")
    return Line(words, "warning" if wait_of(guest) else "plain")


def guest_line(guest, scale, width, shown):
    """Returns the line of a guest: its numbers, its bar, and what it waits for."""
    numbers = "".join(f"{it:>{NUMBER_WIDTH}}" for it in numbers_of(guest))
    wait, kind = wait_line(guest)
    room = max(width - NAME_WIDTH - 4 * NUMBER_WIDTH - 18, 8)
    if guest["memory"] == 0:  # there is no bar, which leaves its place to longer words
        room = max(min(room, width - NAME_WIDTH - 4 * NUMBER_WIDTH - 3 - len(wait)), 1)
    text = (
        f"{guest['name'][:NAME_WIDTH]:<{NAME_WIDTH}}{numbers}  "
        f"{guest_bar(guest, scale, room - 1, shown.blocks):<{room}} {wait}"
    )
    return Line(text[:width].rstrip(), kind)


def picture(status, width, height, shown, fault=""):
    """Returns the lines of a screen; `fault` is why there is no newer status."""
    host, guests, room_across, width = (
        status["host"],
        status["guests"],
        width,
        max(width, LEAST_WIDTH),
    )
    scale = max((it["memory"] for it in guests), default=0)
    lines = [*host_lines(host, guests, width, shown), state_line(host, shown, fault), Line("")]
    head = f"{'guest':<{NAME_WIDTH}}" + "".join(f"{it:>{NUMBER_WIDTH}}" for it in NUMBERS)
    lines.append(Line(f"{head}  memory", "head"))
    room = max(height - len(lines) - 2, 0)
    chosen = ordered(guests, shown.sort)[shown.first : shown.first + room]
    lines += [guest_line(it, scale, width, shown) for it in chosen]
    lines += [Line("")] * height
    own, spare, lent, _, mark = shown.blocks
    keys = (
        f"{own} held  {spare} of it spare  {lent} lent  {mark} left by the target   q quit  s "
        "sort  p pause"
    )
    return [
        Line(it.text[:room_across], it.kind)
        for it in [*lines[: max(height - 1, 0)], Line(keys, "head")]
    ]
