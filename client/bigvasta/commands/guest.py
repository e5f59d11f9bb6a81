"""`bigvasta guest`: one guest, and what is agreed with it."""

from bigvasta.commands.changes import add_guest_words, how_long
from bigvasta.sizes import mebibytes
from bigvasta.subcommands import ask
from bigvasta.terms import TARGET, TERMS, TERMS_HELP, parse_terms, said
from bigvasta.waits import migration_of, wait_of

SIZES = ("memory", "held", "loan", "excess", "target", "ballooned", "free", "available", "spare")


def describe(guest):
    """Yields the lines about a guest."""
    terms = guest["terms"]
    most = "none" if terms["most"] is None else f"{mebibytes(terms['most'])} MiB"
    yield f"{guest['name']}: {guest['state']}, at {guest['socket']}"
    for name in SIZES:
        yield f"  {name:<10} {mebibytes(guest[name]):>8} MiB"
    yield f"  {'least':<10} {mebibytes(terms['least']):>8} MiB"
    yield f"  {'most':<10} {most:>12}"
    yield f"  {'priority':<10} {terms['priority']:>8}"
    yield f"  {'weight':<10} {terms.get('weight', 1):>8}"
    yield f"  {'strict':<10} {'yes' if terms['strict'] else 'no':>8}"
    yield f"  {'overhead':<10} {mebibytes(terms['overhead']):>8} MiB"
    if terms["limit"]:
        yield f"  {'limit':<10} {mebibytes(guest['limit']):>8} MiB, by {terms['limit']}"
    if terms.get("user") is not None:
        yield f"  {'user':<10} {terms['user']:>8}"
    if terms.get("memory") is not None:
        yield f"  {'at most':<10} {mebibytes(terms['memory']):>8} MiB of memory"
    if terms.get("start") is not None:
        yield f"  {'start':<10} {mebibytes(terms['start']):>8} MiB"
    if wait_of(guest):
        yield f"  waits for  {wait_of(guest)}"
    if migration_of(guest):
        yield f"  migrates   {migration_of(guest)}"
    for name, value in guest.get("statistics", {}).items():
        yield f"  {name:<19} {value:>20}"


def lines(answer):
    """Yields the lines about a guest, and for how long what was changed lasts."""
    yield from describe(answer["guest"])
    if how_long(answer):
        yield f"  changed{how_long(answer)}"


def run(asked):
    """Changes what is asked for, and prints the guest."""
    fields = said(parse_terms(asked.words, TERMS | TARGET))
    ask(asked, "guest", lines, name=asked.name, **fields)


def add(commands):
    """Adds the subcommand."""
    words = commands.add(
        "guest",
        run,
        "a guest; and changes what is agreed with it",
        "Shows a guest. With words, changes what is agreed with it: all of them or, where the "
        "host refuses one, none.",
        changes=lambda asked: bool(asked.words),
    )
    add_guest_words(words, f"{TERMS_HELP} target=SIZE")
