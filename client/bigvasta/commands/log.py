"""`bigvasta log`: what the host decided, what was changed and by whom, and with -f what happens
from now on."""

import json
import re
import time

from bigvasta.connection import Connection
from bigvasta.sizes import mebibytes, seconds
from bigvasta.statuses import Refused, Usage
from bigvasta.waits import refusal
from bigvasta.words import say

# Seconds of a unit of a duration.
UNITS = {"s": 1, "m": 60, "h": 3600, "d": 86400}


# Answers of a kind: a host that keeps 512 decisions gives some 32.
MOST_ANSWERS = 256

# What an event has that is a change.
CHANGED = {"change", "key", "was", "is", "user", "process"}


def clock(moment):
    """Returns the words for a moment: its day, where that isn't today."""
    its, today = time.localtime(moment), time.localtime()
    form = "%H:%M:%S" if its[:3] == today[:3] else "%Y-%m-%d %H:%M:%S"
    return time.strftime(form, its)


def share(its):
    """Returns what a decision asks of a guest."""
    old = "" if its["old"] == its["target"] else f"{mebibytes(its['old'])}>"
    pressed = " (pressed)" if its.get("pressed") else ""
    return f"{its['guest']} {old}{mebibytes(its['target'])}{pressed}"


def decision_line(decision):
    """Returns the line of a decision: why it was taken, and the targets in MiB."""
    why = decision["reason"] + (f" of {decision['guest']}" if decision["guest"] else "")
    short = f", {mebibytes(decision['missing'])} missing" if decision["missing"] else ""
    tier = f", tier {decision['tier']}" if "tier" in decision else ""
    targets = ", ".join(map(share, decision["shares"])) or "no guests"
    return (
        f"decision {decision['number']}: {why}; budget {mebibytes(decision['budget'])}{short}"
        f"{tier}; targets: {targets}"
    )


def change_line(change):
    """Returns the line of a change: of what, and who made it."""
    whose = f"{change['guest']}: " if "guest" in change else ""
    name = f" ({change['by']})" if "by" in change else ""
    by = f"user {change['user']}{name}, process {change['process']}"
    if not change["process"]:
        by = "a signal"
    return f"changed {whose}{change['key']} {change['was']} > {change['is']} by {by}"


def event_line(event):
    """Returns the line of an event."""
    begin = clock(event["time"])
    if "decision" in event:
        return f"{begin} {decision_line(event['decision'])}"
    if CHANGED <= event.keys():
        return f"{begin} {change_line(event)}"
    words = [
        event["event"],
        event.get("guest"),
        event.get("state"),
        event.get("waits_for"),
        event.get("reason"),
        event.get("migration"),
    ]
    if {"for", "bytes"} <= event.keys():
        words.append(refusal(event))
    if "waits" in event:
        words.append(f"after {seconds(event['waits'])}")
    if "budget" in event:
        words.append(f"{mebibytes(event['budget'])} MiB")
    return " ".join([begin, *(str(it) for it in words if it is not None)])


def kept(host, request, what, since):
    """Yields what the host has kept of this kind from this number on."""
    for _ in range(MOST_ANSWERS):
        answer = host.ask(request, since=since)
        if answer["lost"]:
            yield {"lost": answer["lost"], "what": what}
        yield from answer[what]
        if answer["next"] <= since:
            return
        since = answer["next"]
    raise host.unclear(f"the host's {what} don't end")


def past(host, since):
    """Returns the decisions and the changes that the host has kept, in their order."""
    decisions = list(kept(host, "log", "decisions", since))
    try:
        changes = list(kept(host, "changes", "changes", 0))
    except Refused:
        changes = []  # an older host keeps none
    moments = [it["seconds"] for it in decisions if "seconds" in it]
    begin = min(moments, default=float("inf")) if since else 0
    found = [it for it in changes if it.get("seconds", begin) >= begin] + decisions
    return sorted(found, key=lambda it: it.get("seconds", 0))


class Wanted:
    """What of the log is asked for."""

    def __init__(self, asked):
        self.guest, self.changes, self.since, self.begin = asked.guest, asked.targets, 0, 0
        found = re.fullmatch(r"(\d{1,9})([smhd]?)", asked.since, re.ASCII)
        if not found:
            raise Usage(
                f"--since: {asked.since!r} is neither a number nor a time such as 10m or 2h"
            )
        if found[2]:
            self.begin = time.time() - int(found[1]) * UNITS[found[2]]
        else:
            self.since = int(found[1])

    def of(self, it):
        """Returns what is shown of a decision, a change or an event; None: nothing."""
        if it.get("time", self.begin) < self.begin:
            return None
        its = it.get("decision", it)
        if "shares" not in its:
            return it if self.guest in (None, it.get("guest")) or "lost" in it else None
        shares = [on for on in its["shares"] if self.guest in (None, on["guest"])]
        if self.guest and not shares:
            return None
        if self.changes and all(on["old"] == on["target"] for on in shares):
            return None
        its = {**its, "shares": shares}
        return {**it, "decision": its} if "decision" in it else its


def line_of(it):
    """Returns the line of what is kept."""
    if "lost" in it:
        return f"{it['lost']} {it.get('what', 'decisions')} aren't kept any longer"
    if "change" in it:
        return event_line(it)
    return f"{clock(it['time'])} {decision_line(it)}" if "time" in it else decision_line(it)


def show(it, is_json):
    """Prints what is kept."""
    say(json.dumps(it) if is_json else line_of(it))


def show_past(path, asked, wanted):
    """Prints what was; returns the numbers of the next decision and the next change."""
    seen = [wanted.since, 0]
    with Connection(path) as host:
        found = past(host, wanted.since)
    for it in found:
        seen[0] = max(seen[0], it.get("number", -1) + 1)
        seen[1] = max(seen[1], it.get("change", -1) + 1)
        shown = wanted.of(it)
        if shown:
            show(shown, asked.json)
    return seen


def run(asked):
    """Prints the log. Who follows it is told of events from before the past is asked for, so that
    nothing is missed between them."""
    wanted = Wanted(asked)
    if not asked.follow:
        show_past(asked.control, asked, wanted)
        return
    with Connection(asked.control) as host:
        events = host.follow()
        decision, change = show_past(asked.control, asked, wanted)
        for event in events:
            was_shown = (
                event["decision"]["number"] < decision
                if "decision" in event
                else event.get("change", change) < change
            )
            shown = None if was_shown else wanted.of(event)
            if shown:
                say(json.dumps(shown) if asked.json else event_line(shown))


def add(commands):
    """Adds the subcommand."""
    words = commands.add(
        "log",
        run,
        "what the host decided, and why; what was changed, and by whom",
        "Prints what the host decided, and why: the targets in MiB, OLD>NEW where one changed; "
        "and what was changed of the host, from what to what, and by whom.",
    )
    words.add_argument(
        "-f",
        "--follow",
        action="store_true",
        help="and what happens from now on: guests that come, go, wait, ..",
    )
    words.add_argument(
        "--since",
        default="0",
        metavar="N",
        help="from this decision on; or for so long, as 30s, 10m, 2h or 1d",
    )
    words.add_argument("--guest", metavar="NAME", help="what is about this guest alone")
    words.add_argument(
        "--changes",
        dest="targets",
        action="store_true",
        help="without the decisions that changed no target",
    )
