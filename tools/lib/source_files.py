"""The files of this repository that tools/check-sources looks at, and their lines."""

import glob
import os
import re

ROOT = os.path.realpath(os.path.join(os.path.dirname(__file__), "../.."))


def read(path):
    """Returns a file's text, by its name from the top."""
    with open(f"{ROOT}/{path}", encoding="utf-8") as file:
        return file.read()


def crates():
    """Returns the names of the crates, in the order of crates.txt."""
    return re.findall(r"(?m)^(\w+)[^:#\n]*:", read("crates.txt"))


def files(*patterns):
    """Returns the files of these patterns, by their names from the top."""
    found = [it for pattern in patterns for it in glob.glob(f"{ROOT}/{pattern}", recursive=True)]
    return sorted(
        os.path.relpath(it, ROOT) for it in found if os.path.isfile(it) and "/out/" not in it
    )


def is_test(path):
    """Whether the file is one of a crate's tests, or one of those of `monitor` and `tools`."""
    return (
        re.search(r"/src/(?:tests\.rt|tests/|.*/tests\.rt)|^(?:monitor|tools)/tests/", path)
        is not None
    )


def places(paths, is_bad, of=lambda line: line, part=lambda text: text):
    """Returns each line of these files, or of a part of their texts, that is bad, with its
    place."""
    found = []
    for path in paths:
        for number, line in enumerate(part(read(path)).splitlines(), 1):
            if is_bad(line):
                found.append(f"{path}:{number}: {of(line)}")
    return found
