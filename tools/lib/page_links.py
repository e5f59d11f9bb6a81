"""The links of pages, for tools/check-sources: each leads to a file that is there, and to a heading
that it has; each source that a page names is there, too."""

import os
import re
import subprocess

ROOT = os.path.realpath(os.path.join(os.path.dirname(__file__), "../.."))

LINK = re.compile(r"\]\(([^()\s]+)\)")
HEADING = re.compile(r"(?m)^#+ (.*)$")
CODE = re.compile(r"(?ms)^```.*?^```$|`[^`\n]*`")
NAMED = re.compile(r"`([\w/.-]*\w\.(?:py|[ch]|rt|antt))`")

# The page whose older entries name files that were there.
HISTORY = "CHANGELOG.md"


def read(path):
    """Returns a file's text, by its name from the top."""
    with open(f"{ROOT}/{path}", encoding="utf-8") as file:
        return file.read()


def files(*patterns):
    """Returns the names of all files, or of those that match a pattern, from the top."""
    listed = subprocess.run(
        ["git", "-C", ROOT, "ls-files", "-co", "--exclude-standard", "--", *patterns],
        stdout=subprocess.PIPE,
        text=True,
        check=True,
    )
    return [it for it in listed.stdout.splitlines() if os.path.isfile(f"{ROOT}/{it}")]


def pages():
    """Returns the names of all pages, from the top."""
    return files("*.md")


def anchor(heading):
    """Returns the anchor that a heading gets: lower case, words and hyphens, a hyphen for each
    space."""
    plain = re.sub(r"\[([^\]]*)\]\([^)]*\)", r"\1", heading).strip().lower()
    return re.sub(r"[^\w\- ]", "", plain).replace(" ", "-")


def anchors(text):
    """Returns the anchors of a page."""
    return {anchor(it) for it in HEADING.findall(re.sub(r"(?ms)^```.*?^```$", "", text))}


def fenced(page):
    """Returns the lines of code of a page that are where a fence has its language, and so aren't
    shown."""
    return [
        f"{page}:{number}: the words of a fence aren't shown: {words}"
        for number, line in enumerate(read(page).splitlines(), 1)
        for words in re.findall(r"^ *```\S* +(\S.*)", line)
    ]


def dead():
    """Returns the links that lead nowhere, and what a fence hides, each with its page and line."""
    found = []
    for page in pages():
        found += fenced(page)
        text = CODE.sub(lambda it: re.sub(r"[^\n]", " ", it[0]), read(page))
        for number, line in enumerate(text.splitlines(), 1):
            for target in LINK.findall(line):
                if re.match(r"[a-z]+:", target):
                    continue
                path, _, place = target.partition("#")
                file = os.path.normpath(os.path.join(os.path.dirname(page), path)) if path else page
                if not os.path.exists(f"{ROOT}/{file}"):
                    found.append(f"{page}:{number}: no file {file}")
                elif place and place not in anchors(read(file)):
                    found.append(f"{page}:{number}: {file} has no heading #{place}")
    return found


def missing():
    """Returns the sources that pages name and that aren't there, each with its page and line. NAME
    in one is for any; CRATE/FILE may be one of its src."""
    there = ["/" + it for it in files()]
    return [
        f"{page}:{number}: no file is named {name}"
        for page in pages()
        if page != HISTORY
        for number, line in enumerate(read(page).splitlines(), 1)
        for name in NAMED.findall(line)
        if "NAME" not in name
        and not any(it.endswith(("/" + name, "/" + re.sub("/", "/src/", name, 1))) for it in there)
    ]
