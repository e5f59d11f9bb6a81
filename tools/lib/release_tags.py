"""The tag of a version: `v` and its number, at the commit that was released as that."""

from linux_packages import Fault
from release_tree import said


def name_of(number):
    """Returns the name of a version's tag."""
    return f"v{number}"


def commit_of(number, root):
    """Returns the commit at a version's tag; an empty word where there is no such tag."""
    name = f"refs/tags/{name_of(number)}"
    if not said(["git", "tag", "--list", name_of(number)], cwd=root):
        return ""
    return said(["git", "rev-parse", f"{name}^{{commit}}"], cwd=root).strip()


def refuse_another(tree, root):
    """Says why a commit can't be released: its version's tag is at another one."""
    tagged = commit_of(tree.number, root)
    if tagged and tagged != tree.commit:
        raise Fault(f"{name_of(tree.number)} is {tagged[:12]} already: raise VERSION")


def tag(tree, root):
    """Tags the commit with its version, where it isn't tagged yet."""
    if not commit_of(tree.number, root):
        name = name_of(tree.number)
        said(["git", "tag", "-a", "-m", f"Bigvasta {tree.number}", name, tree.commit], cwd=root)
