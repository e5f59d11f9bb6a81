"""The terminal of `bigvasta watch`: draws pictures of the status, and takes keys."""

import curses
import json
import locale
import sys
import time

from bigvasta.connection import Connection
from bigvasta.picture import BLOCKS, PLAIN, SORTS, Shown, picture
from bigvasta.source import Source
from bigvasta.statuses import Usage
from bigvasta.words import plain, say

ESCAPE = 27


def watch_lines(path, interval):
    """Prints the status again and again, an object a line."""
    with Connection(path) as host:
        while True:
            say(json.dumps(host.ask("status")))
            time.sleep(interval)


def styles():
    """Returns how each kind of line is drawn."""
    warning = curses.A_BOLD
    if curses.has_colors():
        curses.use_default_colors()
        curses.init_pair(1, curses.COLOR_YELLOW, -1)
        warning |= curses.color_pair(1)
    return {"plain": curses.A_NORMAL, "head": curses.A_BOLD, "warning": warning}


def draw(screen, lines, looks):
    """Draws the lines, as far as the screen has room."""
    height, width = screen.getmaxyx()
    screen.erase()
    for number, line in enumerate(lines[:height]):
        try:
            screen.addnstr(number, 0, plain(line.text), width, looks[line.kind])
        except curses.error:
            pass  # the last place of a screen can't be written without moving on from it
    screen.refresh()


def obey(key, shown, guests):
    """Returns what is shown after a key; None where it ends the view."""
    if key in (ord("q"), ESCAPE):
        return None
    if key == ord("s"):
        return shown._replace(sort=SORTS[(SORTS.index(shown.sort) + 1) % len(SORTS)])
    if key == ord("p"):
        return shown._replace(paused=not shown.paused)
    moves = {
        curses.KEY_DOWN: 1,
        ord("j"): 1,
        curses.KEY_UP: -1,
        ord("k"): -1,
        curses.KEY_NPAGE: 10,
        curses.KEY_PPAGE: -10,
    }
    if key in moves:
        return shown._replace(first=min(max(shown.first + moves[key], 0), max(guests - 1, 0)))
    return shown


def hide_cursor():
    """Hides the cursor, where the terminal can."""
    try:
        curses.curs_set(0)
    except curses.error:
        pass  # as vt100


def show(screen, source, interval):
    """Shows the host until a key ends it."""
    hide_cursor()
    looks = styles()
    # Python has taken the user's locale; where this machine has none of its name, that is C.
    is_utf8 = "UTF" in locale.nl_langinfo(locale.CODESET).upper()
    shown, look = Shown(blocks=BLOCKS if is_utf8 else PLAIN), time.monotonic()
    while shown:
        height, width = screen.getmaxyx()
        draw(screen, picture(source.status, width, height, shown, source.fault), looks)
        screen.timeout(max(int((look + interval - time.monotonic()) * 1000), 0))
        shown = obey(screen.getch(), shown, len(source.status["guests"]))
        if time.monotonic() >= look + interval:
            look = time.monotonic()
            if shown and not shown.paused:
                source.look()


def watch(path, interval):
    """Shows the host in the terminal."""
    if not (sys.stdin.isatty() and sys.stdout.isatty()):
        raise Usage("watch wants a terminal: --json prints a line at each look instead")
    source = Source(path)
    source.ask()
    try:
        curses.wrapper(show, source, interval)
    except curses.error as fault:
        raise Usage(f"watch can't be shown by this terminal: {fault}") from None
    finally:
        source.close()
