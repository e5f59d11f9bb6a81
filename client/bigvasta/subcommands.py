"""How a subcommand joins the command line, and how it asks the host once."""

import argparse
import json
import os

from bigvasta.connection import CONTROL, STATUS, Connection
from bigvasta.words import say

AS_JSON = "print the host's answer, an object a line"


def common():
    """Returns the options of all that asks a host."""
    words = argparse.ArgumentParser(add_help=False)
    words.add_argument(
        "--control",
        metavar="PATH",
        default=os.environ.get("BIGVASTA_CONTROL"),
        help=(
            f"the host's socket (what BIGVASTA_CONTROL says; else {CONTROL} for what changes the "
            f"host, {STATUS} for what shows it)"
        ),
    )
    words.set_defaults(changes=lambda asked: False)
    return words


class Subcommands:
    """The subcommands of a command line."""

    def __init__(self, parser):
        self.own, self.common = parser.add_subparsers(metavar="COMMAND", required=True), common()

    def add(self, name, run, about, description, has_json=True, **defaults):
        """Adds one that asks the host, and returns its words; what it sets as `run` returns an exit
        status or None."""
        words = self.own.add_parser(
            name, parents=[self.common], help=about, description=description
        )
        if has_json:
            words.add_argument("--json", action="store_true", help=AS_JSON)
        words.set_defaults(run=run, **defaults)
        return words


def ask(asked, request, lines_of, **fields):
    """Asks the host, and prints its answer, or the lines that are made of it."""
    if getattr(asked, "until_restart", False):
        fields["until_restart"] = True
    with Connection(asked.control) as host:
        answer = host.ask(request, **fields)
    say(*([json.dumps(answer)] if asked.json else lines_of(answer)))
