"""`bigvasta add`, `remove`, `budget` and `floor`: what changes the host."""

from bigvasta.sizes import mebibytes, parse_size
from bigvasta.subcommands import ask
from bigvasta.terms import TERMS, TERMS_HELP, parse_terms, said


def how_long(answer):
    """Returns the words for how long a change lasts, where that isn't for good."""
    return ", until the host restarts" if answer.get("lasts") is False else ""


def run_config(asked):
    """Prints all that is so now, as a configuration file."""
    ask(asked, "config", lambda it: it["config"].splitlines())


def run_add(asked):
    """Adds a guest, and prints where its client comes."""
    terms = said(parse_terms(asked.words, TERMS))
    ask(asked, "add", lambda it: [it["guest"]["socket"]], name=asked.name, **terms)


def run_remove(asked):
    """Ends the service of a guest."""

    def lines(answer):
        lives = "; its memory lives on until its VMM closes it" if answer.get("lives_on") else ""
        return [f"{asked.name} is removed{how_long(answer)}{lives}"]

    ask(asked, "remove", lines, name=asked.name, **({"force": True} if asked.force else {}))


def run_size(asked):
    """Prints the budget or the floor, or sets it."""
    fields = {} if asked.size is None else {"bytes": parse_size(asked.size, asked.request)}

    def lines(answer):
        return [f"{mebibytes(answer[asked.request])} MiB{how_long(answer)}"]

    ask(asked, asked.request, lines, **fields)


def add_guest_words(words, terms):
    """Adds the name of a guest, and what is agreed with it."""
    words.add_argument("name", metavar="NAME")
    words.add_argument("words", metavar="KEY=VALUE", nargs="*", help=terms)
    until_restart(words)


def until_restart(words):
    """Adds the option for what isn't to last."""
    words.add_argument(
        "--until-restart",
        action="store_true",
        help="the host forgets it as it restarts, though it has a folder for what was changed",
    )


def add(commands):
    """Adds the subcommands."""
    words = commands.add(
        "add",
        run_add,
        "a guest may come; prints its socket",
        "Lets a guest come, and prints the socket to which its VMM connects. bigvasta(1) says what "
        "each KEY agrees with it.",
        changes=lambda asked: True,
    )
    add_guest_words(words, TERMS_HELP)
    words = commands.add(
        "remove",
        run_remove,
        "ends the service of a guest",
        "Ends the service of a guest.",
        changes=lambda asked: True,
    )
    words.add_argument("name", metavar="NAME")
    until_restart(words)
    words.add_argument(
        "--force", action="store_true", help="though it is at work: its memory lives on"
    )
    for request, what in (
        ("budget", "what all guests may hold together"),
        ("floor", "what each guest keeps free"),
    ):
        words = commands.add(
            request,
            run_size,
            f"{what}; and sets it",
            f"Prints {what}, or sets it.",
            request=request,
            changes=lambda asked: asked.size is not None,
        )
        words.add_argument("size", metavar="SIZE", nargs="?", help="such as 480M")
        until_restart(words)
    commands.add(
        "config",
        run_config,
        "all that is so now, as a configuration file",
        "Prints all that is so now, as a configuration file of the host.",
    )
