"""The walks of the map, for tools/check-sources: each row names a function where it is declared,
which a row above it calls, or with which it shares a word."""

import glob
import re

from source_files import ROOT, read

MOST_ROWS = 10

TITLE = r"(?m)^\*\*([^*\n]+)\*\*\n\n((?:\d+\. .*\n(?:   .*\n)*)*)"
ROW = r"(?m)^(\d+)\. `([\w./]+)` `(\w+)`:((?:.*\n)(?:   .*\n)*)"


def path_of(name):
    """Returns a row's file, by its name from the top."""
    if name.endswith(".rt"):
        crate, _, file = name.partition("/")
        return f"crates/{crate}/src/{file}"
    return f"monitor/{'backends' if '/' in name else 'include'}/{name}"


def declares(path, text, name):
    """Returns whether a file has the body of this function."""
    if path.endswith(".rt"):
        return re.search(rf"\bfn {name}\b", text) is not None
    return re.search(rf"(?m)^[a-z][\w *]*\b{name}\([^;{{]*\)\n\{{", text) is not None


def calls(above, path, name, said):
    """Returns whether a file of the rows above names this function, or has a word that the row
    shows and its own file has."""
    shown = re.findall(r"`(\w+)`", said)
    ways = [[name]] + [[it] for it in shown if re.search(rf"\b{it}\b", read(path))]
    return any(re.search(rf"\b{it}\b", read(file)) for file in above for way in ways for it in way)


def faults_of(rows):
    """Returns what is wrong with the rows of a walk."""
    found = []
    above = []
    for at, (number, file, name, said) in enumerate(rows, 1):
        path = path_of(file)
        if int(number) != at or at > MOST_ROWS:
            found.append(f"row {number} is row {at} of {MOST_ROWS} at most")
        if not glob.glob(f"{ROOT}/{path}"):
            found.append(f"no file {path}")
            continue
        if not declares(path, read(path), name):
            found.append(f"{path} has no function {name}")
        elif above and not calls(above, path, name, said):
            found.append(f"no row above {name} calls it")
        above.append(path)
    return found


def walks():
    """Returns what is wrong with the map's walks."""
    section = read("docs/MAP.md").partition("\n## Five walks\n")[2].partition("\n## ")[0]
    found = re.findall(TITLE, section)
    listed = [it for it in section.splitlines() if re.match(r"\d+\. ", it)]
    rows = {title: re.findall(ROW, text) for title, text in found}
    faults = [f"docs/MAP.md: {title}: {it}" for title in rows for it in faults_of(rows[title])]
    if not listed or sum(map(len, rows.values())) != len(listed):
        faults.append("docs/MAP.md: a row of a walk isn't `FILE` `FUNCTION`: what it does")
    return faults
