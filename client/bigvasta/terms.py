"""What is agreed with a guest, as words `key=value` of a command line."""

from bigvasta.sizes import parse_size, whole
from bigvasta.statuses import Usage

MOST_PRIORITY = (1 << 32) - 1


def limit(text, name):
    """Returns a size, or that there is no limit."""
    return "none" if text == "none" else parse_size(text, name)


def priority(text, name):
    """Returns a priority."""
    number = whole(text)
    if number is None or number > MOST_PRIORITY:
        raise Usage(f"{name}: {text!r} is no whole number up to {MOST_PRIORITY}")
    return number


def weight(text, name):
    """Returns a weight."""
    number = whole(text)
    if number is None or not 0 < number <= MOST_PRIORITY:
        raise Usage(f"{name}: {text!r} is no whole number from 1 to {MOST_PRIORITY}")
    return number


def boolean(text, name):
    """Returns whether a word says yes."""
    if text not in ("yes", "no"):
        raise Usage(f"{name}: {text!r} is neither yes nor no")
    return text == "yes"


def kernel_limit(text, name):
    """Returns the words of a limit that the kernel enforces, or that there is none."""
    kind, _, path = text.partition(":")
    if text != "none" and (kind not in ("cgroup", "tmpfs") or not path.startswith("/")):
        raise Usage(f"{name}: {text!r} is none of cgroup:PATH, tmpfs:MOUNT and none")
    return text


def user(text, name):
    """Returns a user's number, or its name, which the host knows."""
    number = whole(text)
    return text if number is None else number


TERMS = {
    "least": parse_size,
    "most": limit,
    "priority": priority,
    "weight": weight,
    "strict": boolean,
    "overhead": parse_size,
    "limit": kernel_limit,
    "user": user,
    "memory": limit,
    "start": limit,
}
TERMS_HELP = (
    "least=SIZE most=SIZE|none priority=N weight=N strict=yes|no overhead=SIZE "
    "limit=cgroup:PATH|tmpfs:MOUNT|none user=USER|none memory=SIZE|none "
    "start=SIZE|none"
)
TARGET = {"target": parse_size}


def parse_terms(words, known):
    """Returns the fields that these words ask for."""
    fields = {}
    for word in words:
        name, found, text = word.partition("=")
        if not found or name not in known:
            raise Usage(f"{word!r} is none of {', '.join(f'{it}=' for it in known)}")
        if name in fields:
            raise Usage(f"{name}= is said twice")
        fields[name] = known[name](text, name)
    return fields


def said(fields):
    """Returns fields as the protocol has them, where no limit is null."""
    return {name: None if value == "none" else value for name, value in fields.items()}
