"""What a script's run comes to, for tools/draw-run: the numbers after its events, by questions put
in, and its marks."""

import csv
import subprocess
from typing import NamedTuple

# At most this many points are drawn where no --every is given: a picture is hardly wider.
MOST_POINTS = 2000

# The program's status for a script with a bad line.
BAD_LINE = 1

FRAMES = ("used", "free")
COUNTS = ("ballooned", "actual", "target")
PLACES = ("free", "used", "giving", "lent", "taking", "stranded", "reporting")


class Fault(Exception):
    """Why there is neither a picture nor numbers, in one line."""


class BadScript(Exception):
    """The program's own line about a bad line of the script."""


class Script(NamedTuple):
    """The lines of a script that are not skipped: those of the host and its devices, and the
    events."""

    settings: list[str]
    events: list[str]


class Point(NamedTuple):
    """What the questions after an event were answered: about the frames, and about each guest."""

    event: int
    frames: dict[str, int]
    guests: dict[int, dict[str, int]]


class Mark(NamedTuple):
    """An event that the picture marks in its guest's panel."""

    event: int
    guest: int
    text: str


def script_of(text):
    """Reads a good script. Its comments may have any bytes, and a line ends at a line feed
    alone."""
    lines = [it for it in text.decode("latin-1").split("\n") if it and not it.startswith("#")]
    settings = [it for it in lines if it.split(" ")[0] in ("host", "spare")]
    return Script(settings, lines[len(settings) :])


def run(program, text):
    """Has the program answer a script; returns its replies, and what it says on standard error."""
    ran = subprocess.run([program, "run"], input=text, capture_output=True)
    said = ran.stderr.decode("utf-8", "replace")
    last = said.strip().split("\n")[-1]
    if ran.returncode == BAD_LINE and last:
        raise BadScript(last)
    if ran.returncode < 0:
        raise Fault(f"{program} was ended by signal {-ran.returncode}")
    if ran.returncode != 0:
        raise Fault(
            ": ".join([f"{program} ended with status {ran.returncode}", *filter(None, [last])])
        )
    return ran.stdout.decode("latin-1").split("\n")[:-1], said


def marks_of(script, replies):
    """Returns the events that are marked, by what they are or by what they were answered."""
    marks = []
    for number, (event, reply) in enumerate(zip(script.events, replies), 1):
        words = event.split(" ")
        if words[0] == "plug" and reply.startswith("guest "):
            marks.append(Mark(number, int(reply.split(" ")[1]), "plug"))
        elif words[0] in ("unplug", "restart", "reset") and reply == "ok":
            marks.append(Mark(number, int(words[1]), words[0]))
        elif reply in ("no frame", "ring broken") or reply.startswith("broken "):
            marks.append(Mark(number, int(words[1]), reply))
    return marks


def guests_behind(count, marks):
    """Returns, for each of `count` events, the numbers of the guests that are there after it."""
    changes = {it.event: it for it in marks if it.text in ("plug", "unplug")}
    there, behind = [], []
    for number in range(1, count + 1):
        if number in changes:
            change = changes[number]
            others = [it for it in there if it != change.guest]
            there = sorted([*others, change.guest]) if change.text == "plug" else others
        behind.append(there)
    return behind


def kind_of(mark):
    """Returns the kind of a mark, for all faults that the device finds the same."""
    return "broken" if mark.text.startswith("broken ") else mark.text


def events_asked_about(count, every):
    """Returns the numbers of the events that questions follow: every Nth one, and the last."""
    every = every or -(-count // MOST_POINTS)
    return sorted({*range(every, count + 1, every), count})


def questions(guests):
    """Returns the questions that are put in after an event where these guests are there."""
    return ["frames", *(f"{word} {guest}" for guest in guests for word in ("balloon", "places"))]


def with_questions(script, asked, behind):
    """Returns the text of the script with questions after the events asked about."""
    lines, asked = list(script.settings), set(asked)
    for number, event in enumerate(script.events, 1):
        lines.append(event)
        if number in asked:
            lines.extend(questions(behind[number - 1]))
    return "".join(f"{it}\n" for it in lines).encode("latin-1")


def numbers_of(words, names):
    """Reads an answer that has a number after each of these names."""
    if tuple(words[0::2]) != names or not all(it.isdecimal() for it in words[1::2]):
        raise Fault(f"no answer to a question: {' '.join(words)}")
    return dict(zip(names, map(int, words[1::2]), strict=True))


def point_of(event, guests, answers):
    """Reads the answers to the questions that follow an event."""
    _, *frames = answers[0].split(" ")
    point = Point(event, numbers_of(frames, FRAMES), {})
    for guest, balloon, places in zip(guests, answers[1::2], answers[2::2]):
        counts = numbers_of(balloon.split(" "), (*COUNTS, "status"))
        point.guests[guest] = {**counts, **numbers_of(places.split(" "), PLACES)}
    return point


def points_of(answered, replies, asked, behind):
    """Reads the points from the second run, where the script's events are answered as in the
    first."""
    points, place, asked = [], 0, set(asked)
    for number, (reply, guests) in enumerate(zip(replies, behind), 1):
        if answered[place] != reply:
            raise Fault(
                f"event {number} is answered {reply!r}, but {answered[place]!r} with questions "
                "put in"
            )
        place += 1
        if number in asked:
            behind_it = place + len(questions(guests))
            points.append(point_of(number, guests, answered[place:behind_it]))
            place = behind_it
    return points


def measure(path, program, every):
    """Runs a script twice; returns the points and marks of its picture, and what the program
    said."""
    with open(path, "rb") as opened:
        text = opened.read()
    replies, said = run(program, text)
    script = script_of(text)
    if not script.events:
        raise Fault(f"{path} has no events")
    if len(replies) != len(script.events):
        raise Fault(f"{program} gave {len(replies)} replies to {len(script.events)} events")
    marks = marks_of(script, replies)
    behind = guests_behind(len(script.events), marks)
    asked = events_asked_about(len(script.events), every)
    answered, _ = run(program, with_questions(script, asked, behind))
    if len(answered) != len(replies) + sum(len(questions(behind[it - 1])) for it in asked):
        raise Fault(f"{program} gave {len(answered)} replies where questions were put in")
    return points_of(answered, replies, asked, behind), marks, said


def write_numbers(path, points, marks):
    """Writes the points and the marks as a CSV file, by rising event."""
    rows = []
    for point in points:
        frames = {"event": point.event, **{f"frames_{name}": point.frames[name] for name in FRAMES}}
        guests = [{"guest": guest, **numbers} for guest, numbers in point.guests.items()]
        rows.extend({**frames, **guest} for guest in guests or [{}])
    rows.extend({"event": mark.event, "guest": mark.guest, "mark": mark.text} for mark in marks)
    columns = ("event", *(f"frames_{name}" for name in FRAMES), "guest", *COUNTS, *PLACES, "mark")
    with open(path, "w", encoding="utf-8", newline="") as opened:
        writer = csv.DictWriter(opened, columns, extrasaction="ignore", lineterminator="\n")
        writer.writeheader()
        writer.writerows(sorted(rows, key=lambda row: row["event"]))
