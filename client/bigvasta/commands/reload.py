"""`bigvasta reload`: the host reads its configuration file again."""

from bigvasta.subcommands import ask


def run(asked):
    """Has the file read, and prints that it was; what is wrong in it is refused, and the host keeps
    what it had."""
    ask(asked, "reload", lambda _: ["the configuration is read"])


def add(commands):
    """Adds the subcommand."""
    commands.add(
        "reload",
        run,
        "the host reads its configuration file again",
        "Has the host read its configuration file again. Where the file is wrong, the host keeps "
        "what it had, and the status is 1.",
        changes=lambda asked: True,
    )
