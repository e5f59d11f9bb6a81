"""The packages that pages, tools and tests name, for tools/check-sources: each list is the same
wherever it is."""

import glob
import os
import re

from source_files import ROOT, read
from suites import SUITES, packages_of

# Lists of packages that are one: each place is a file, and the pattern of the list in it.
PACKAGES = (
    (
        ("monitor/Makefile", r"(?m)^PACKAGES = (.*)$"),
        ("README.md", r"`make -C monitor test` \|[^|]*\(`([^`]*)`\)"),
        ("tools/lib/gate_steps.py", r'(?m)^SHIMS = "(.*)"$'),
        ("monitor/README.md", r"`apt-get install ([^`]*librust-vm-memory-dev)`"),
    ),
    (
        ("README.md", r"`make -C monitor daemons` \|[^|]*\(`([^`]*)`\)"),
        ("README.md", r"(?m)^    sudo apt-get install python3 (make .*)$"),
        ("monitor/Makefile", r"in out/library/plain \(`apt-get install ([^`]*)`\)"),
        ("tools/lib/suites.py", r'(?m)^DAEMONS = "(.*)"$'),
    ),
    (
        ("README.md", r"`make -C monitor lint` \|[^|]*\(`([^`]*)`"),
        ("tools/lib/gate_steps.py", r'(?m)^LINT = "(.*)"$'),
    ),
    (
        ("README.md", r"`tools/test SUITE` \|[^|]*\(`([^`]*)`"),
        ("tools/lib/suites.py", r'(?m)^PYTEST = "(.*)"$'),
    ),
    (
        ("README.md", r"`tools/test machine` \|[^|]*\(`([^`]*)`\)"),
        ("tools/lib/suites.py", r'"([^"]* mmdebstrap [^"]*)"'),
    ),
    (
        ("README.md", r"`tools/test fuzz` \|[^|]*\(`([^`]*)`\)"),
        ("tools/lib/suites.py", r'"(clang libclang-rt[^"]*)"'),
    ),
    (
        ("README.md", r"`tools/release` \|[^|]*\(`([^`]*)`\)"),
        ("tools/release", r"`apt-get install ([^`]*)`"),
    ),
)


def wanted():
    """Returns the packages that the tests of a suite of monitor say to install, and that aren't
    among the suite's."""
    found = []
    for name, suite in SUITES.items():
        for path in sorted(
            it
            for word in suite.words
            for it in glob.glob(f"{ROOT}/{word}/*.py")
            if word.startswith("monitor/")
        ):
            asked = set(
                re.findall(
                    r"apt-get install ([a-z][a-z0-9+.-]+)", read(os.path.relpath(path, ROOT))
                )
            )
            found += [
                f"tools/lib/suites.py: {name} wants {it}"
                for it in sorted(asked - set(packages_of(name, all_of_it=True)))
            ]
    return found


def packages():
    """Returns where a list of packages isn't the one that another place has."""
    found = []
    for (first, pattern), *others in PACKAGES:
        wanted = re.findall(pattern, read(first))
        if len(wanted) != 1:
            found.append(f"{first}: {len(wanted)} lists of packages {pattern}")
            continue
        for path, pattern in others:
            lists = re.findall(pattern, read(path))
            if len(lists) != 1 or set(lists[0].split()) - {"#"} != set(wanted[0].split()):
                found.append(
                    f"{path}: packages {' or '.join(lists) or 'none'}, and {first} has {wanted[0]}"
                )
    return found
