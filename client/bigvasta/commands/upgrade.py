"""`bigvasta upgrade`: the host and its guests' processes become the programs that are installed
now, while guests live on."""

import json
import time

from bigvasta.connection import LIMIT, Connection
from bigvasta.statuses import DONE, PART, Refused
from bigvasta.words import say

# Seconds between two looks, and between two times that a guest's process is asked for another one.
LOOK_EVERY, ASK_EVERY = 0.05, 0.5


def changed(before, after):
    """Returns the words for two versions."""
    return f"{before or 'unknown'} -> {after or 'unknown'}"


def look(path, until, condition):
    """Returns the host's status once a condition holds of it, or at this time."""
    while True:
        with Connection(path) as host:
            answer = host.ask("status")
        if condition(answer) or time.monotonic() >= until:
            return answer
        time.sleep(LOOK_EVERY)


def served(answer):
    """Returns the guests that are there, by their names."""
    return {it["name"]: it for it in answer["guests"] if it["state"] not in ("absent", "leaving")}


def upgrade_host(path):
    """Has the host become its program, and waits until that one knows its guests; returns the
    status before and after."""
    with Connection(path) as host:
        before = host.ask("status")
        host.ask("upgrade")
        host.ends()
    after = look(
        path,
        time.monotonic() + LIMIT,
        lambda answer: all(it["process"] for it in served(answer).values()),
    )
    return before, after


def renew(path, guest):
    """Has another process go on with a guest; returns the guest as it is then, or at the end of the
    time; None where it has gone."""
    until, name, now = time.monotonic() + LIMIT, guest["name"], guest
    while now and now["process"] in (0, guest["process"]) and time.monotonic() < until:
        try:
            with Connection(path) as host:
                host.ask("renew", name=name)
        except Refused:
            return None
        answer = look(
            path,
            min(until, time.monotonic() + ASK_EVERY),
            lambda it: served(it).get(name, guest)["process"] not in (0, guest["process"]),
        )
        now = served(answer).get(name)
    return now


def run(asked):
    """Upgrades, and prints the versions before and after."""
    before, after = upgrade_host(asked.control)
    earlier, stay = {it["name"]: it["version"] for it in before["guests"]}, []
    tell = (lambda *_: None) if asked.json else say
    tell(f"host: {changed(before['host']['version'], after['host']['version'])}")
    for name, guest in served(after).items():
        now = renew(asked.control, guest)
        version = earlier.get(name, guest["version"])
        if now and now["version"] != after["host"]["version"]:
            stay.append(name)
            tell(f"{name}: {now['version'] or 'unknown'} stays, until its client reconnects")
        elif now and now["process"] == guest["process"]:
            stay.append(name)
            tell(f"{name}: {now['version']} stays: its process doesn't answer, or waits for memory")
        elif now:
            tell(f"{name}: {changed(version, now['version'])}")
        else:
            tell(f"{name}: has gone")
    if asked.json:
        say(json.dumps(look(asked.control, 0, lambda _: True)))
    return PART if stay else DONE


def add(commands):
    """Adds the subcommand."""
    commands.add(
        "upgrade",
        run,
        "the host and its guests' processes become the programs that are installed now",
        "Has the host and its guests' processes become the programs that are installed now, while "
        "guests live on. Prints the versions before and after.",
        changes=lambda asked: True,
    )
