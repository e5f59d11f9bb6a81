"""The tags of versions that tools/release makes."""

import subprocess
from typing import NamedTuple

import pytest
from linux_packages import Fault
from release_tags import commit_of, refuse_another, tag


class Released(NamedTuple):
    """A version, and the commit that is released as that."""

    number: str
    commit: str


def git(root, *words):
    """Returns what git printed."""
    author = ("-c", "user.name=Tests", "-c", "user.email=tests@localhost")
    ran = subprocess.run(
        ["git", *author, *words], cwd=root, check=True, capture_output=True, text=True
    )
    return ran.stdout.strip()


@pytest.fixture
def root(tmp_path, monkeypatch):
    """A tree of two commits, by a user that has a name."""
    monkeypatch.setenv("GIT_COMMITTER_NAME", "Tests")
    monkeypatch.setenv("GIT_COMMITTER_EMAIL", "tests@localhost")
    git(tmp_path, "init", "-q")
    for subject in ("Begin", "Continue"):
        git(tmp_path, "commit", "-q", "--allow-empty", "-m", subject)
    return tmp_path


def test_a_release_is_tagged_once(root):
    first, last = git(root, "rev-parse", "HEAD~1"), git(root, "rev-parse", "HEAD")
    refuse_another(Released("1.2.0", first), root)
    tag(Released("1.2.0", first), root)
    tag(Released("1.2.0", first), root)
    tag(Released("1.3.0", last), root)
    assert [commit_of(it, root) for it in ("1.2.0", "1.3.0", "1.4.0")] == [first, last, ""]
    assert git(root, "tag").split() == ["v1.2.0", "v1.3.0"]
    assert git(root, "cat-file", "-t", "v1.2.0") == "tag"


def test_no_two_commits_have_a_version(root):
    first, last = git(root, "rev-parse", "HEAD~1"), git(root, "rev-parse", "HEAD")
    tag(Released("1.2.0", first), root)
    refuse_another(Released("1.2.0", first), root)
    with pytest.raises(Fault, match=f"^v1.2.0 is {first[:12]} already: raise VERSION$"):
        refuse_another(Released("1.2.0", last), root)
