"""The constants of crates of Rattle, with their values, for tools/list-codes."""

import ast
import collections
import operator
import re
import sys

from source_files import files, is_test, read

Constant = collections.namedtuple("Constant", "name type value comment")

CONSTANT = re.compile(r"(?m)((?:^ *///.*\n)*)^ *(?:pub(?:\(\w+\))? )?const (\w+): (\w+) = ([^;]+);")
SUMS = {
    ast.Add: operator.add,
    ast.Sub: operator.sub,
    ast.Mult: operator.mul,
    ast.FloorDiv: operator.floordiv,
    ast.LShift: operator.lshift,
}


def constants(path):
    """Returns the constants of a source, in its order."""
    found = CONSTANT.findall(read(path))
    return [
        Constant(name, kind, value, " ".join(re.findall(r"/// ?(.*)", text)))
        for text, name, kind, value in found
    ]


def sources(crate):
    """Returns the sources of a crate, without its tests."""
    return [it for it in files(f"crates/{crate}/src/**/*.rt") if not is_test(it)]


def below(crate):
    """Returns the crates that a crate is built on."""
    row = re.search(rf"(?m)^{crate}\b[^:#\n]*:(.*)$", read("crates.txt"))
    return row[1].split() if row else []


def constant(crate, name):
    """Returns the constant of this name of a crate, or of one that it is built on, with its
    crate."""
    for each in [crate, *below(crate)]:
        for found in [it for path in sources(each) for it in constants(path) if it.name == name]:
            return each, found
    sys.exit(f"list-codes: {crate} knows no constant {name}")


def total(crate, node):
    """Returns the value of an expression of a crate's constants."""
    if isinstance(node, ast.Constant):
        return node.value
    if isinstance(node, ast.Name):
        owner, found = constant(crate, node.id)
        return valued(owner, found)
    return SUMS[type(node.op)](total(crate, node.left), total(crate, node.right))


def valued(crate, found):
    """Returns the value of a constant of a crate."""
    plain = re.sub(r"\bas \w+|\b\w+::", "", found.value).replace("/", "//")
    return total(crate, ast.parse(plain.strip(), mode="eval").body)
