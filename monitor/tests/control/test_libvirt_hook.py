"""libvirt's hook: a domain that is a guest of the host from its start to its end."""

import os
import socket
import subprocess
import threading

import pytest
from hosts import Answering, Host, Raw
from installed import CLIENT
from waiting import PATIENCE, patience_from_now

MIB = 1 << 20
NAMESPACE = "https://bigvasta.invalid/guest"
DOMAIN = "<domain type='qemu'><name>web-1</name><metadata>{}</metadata></domain>"


def guest(terms=""):
    """Returns the element that makes a domain a guest."""
    return f"<b:guest xmlns:b='{NAMESPACE}' {terms}/>"


class Hook:
    """The hook as libvirt calls it, and what it said last."""

    def __init__(self, control, folder):
        self.said, self.environment = None, {
            **os.environ,
            "PYTHONPATH": CLIENT,
            "BIGVASTA_CONTROL": control,
            "BIGVASTA_LIBVIRT": f"{folder}/added",
        }

    def __call__(self, operation, metadata="", name="web-1", text=None):
        """Calls it; returns its status."""
        ran = subprocess.run(
            [f"{CLIENT}/libvirt-hook", name, *operation.split(), "-"],
            input=DOMAIN.format(metadata) if text is None else text,
            env=self.environment,
            capture_output=True,
            text=True,
            timeout=PATIENCE,
        )
        self.said = ran.stderr
        return ran.returncode


@pytest.fixture
def hook(host, folder):
    """The hook, beside a host."""
    return Hook(host.control, folder)


def lose_answer(listener, host):
    """Hands a client's request on to a host, and goes before its answer."""
    with listener.accept()[0] as client:
        raw = Raw(host.control)
        raw.answer(client.recv(4096).rstrip(b"\n"))
        raw.close()


def names(host):
    """Returns the names of the host's guests."""
    return [it["name"] for it in host.ask("status")["guests"]]


def test_from_start_to_end(host, hook):
    """A guest with its terms, whose client comes at once, and is at work as the domain ends."""
    assert hook("prepare begin", guest("least='8M' priority='2'")) == 0, hook.said
    assert hook("start begin", guest()) == hook("started begin", guest()) == 0
    terms = host.guest("web-1")["terms"]
    assert (terms["least"], terms["priority"]) == (8 * MIB, 2)
    client = Answering(host, "web-1")
    assert hook("stopped end", guest()) == 0 and names(host) == ["web-1"]
    assert hook("release end", guest()) == 0, hook.said
    assert names(host) == []
    client.stop()
    assert hook("prepare begin", guest()) == 0 and host.guest("web-1")["terms"]["least"] == 0
    assert hook("release end", guest()) == 0 and names(host) == []


def test_a_domain_that_is_no_guest(hook):
    """It starts and ends, whether there is a host or not."""
    hook.environment |= {"BIGVASTA_CONTROL": "/nowhere", "PYTHONPATH": ""}
    for operation in "prepare begin", "start begin", "release end":
        assert (hook(operation, "<other xmlns='urn:other'/>"), hook.said) == (0, "")


# A type of document in letters of two bytes each, as expat finds out by itself.
WIDE = ("<!DOCTYPE a>" + DOMAIN.format(guest())).encode("utf-16-le").decode()

# What a domain has, and the end of the line for which it doesn't start.
REFUSED = (
    ({"metadata": guest("much='1M'")}, "'much=1M' is none of least=, most=, priority=, weight=, "),
    ({"metadata": guest("least='1'")}, "least: '1' is no size: a number with K, M, G or T, "),
    ({"metadata": guest("least='2M' most='1M'")}, "its least is more than its most"),
    ({"metadata": guest() * 2}, "the domain's metadata have two elements of Bigvasta's"),
    ({"metadata": guest(), "name": "a.b"}, "a guest has 1 to 31 letters, digits, - and _"),
    ({"metadata": guest(), "name": ".."}, "a guest has 1 to 31 letters, digits, - and _"),
    ({"metadata": guest(), "name": 32 * "a"}, "a guest has 1 to 31 letters, digits, - and _"),
    (
        {"text": "<!DOCTYPE a>" + DOMAIN.format(guest())},
        "the XML of the domain declares a type of document",
    ),
    ({"text": DOMAIN.format(guest() + (1 << 20) * " ")}, "the XML of the domain is too long"),
    ({"text": "<domain>"}, "the XML of the domain: no element found"),
    ({"text": WIDE}, "the XML of the domain declares a type of document"),
)


@pytest.mark.parametrize("domain, line", REFUSED, ids=[it[1] for it in REFUSED])
def test_a_domain_that_is_refused(host, hook, domain, line):
    """It doesn't start, by a line, and leaves nothing."""
    assert hook("prepare begin", **domain) > 0
    assert line in hook.said and hook.said.count("\n") == 1, hook.said
    assert hook.said.startswith(f"bigvasta: {domain.get('name', 'web-1')}: "), hook.said
    assert hook("release end", **domain) == 0 and names(host) == []


def test_without_its_words():
    """It says what it is, and does nothing."""
    ran = subprocess.run([f"{CLIENT}/libvirt-hook", "web-1"], capture_output=True, text=True)
    assert ran.returncode == 1 and ran.stderr.startswith("libvirt's hook for Bigvasta: ")


def test_without_a_host(hook):
    hook.environment["BIGVASTA_CONTROL"] = "/nowhere"
    assert hook("prepare begin", guest()) == 3
    assert hook.said.startswith("bigvasta: no host answers at /nowhere: ")


def test_a_guest_of_somebody_else(host, hook):
    """The domain of its name doesn't start, and its end leaves the guest alone."""
    host.ask("add", name="web-1", least=MIB)
    assert hook("prepare begin", guest()) == 1
    assert hook.said.startswith("bigvasta: a guest is named web-1 already: "), hook.said
    assert hook("release end", guest()) == 0
    assert host.guest("web-1")["terms"]["least"] == MIB


def test_a_note_that_cannot_be_written(host, hook, folder):
    """The domain doesn't start, and leaves no guest: it would be somebody else's from then on."""
    place = hook.environment["BIGVASTA_LIBVIRT"]
    hook.environment["BIGVASTA_LIBVIRT"] = f"{folder}/log/added"
    assert hook("prepare begin", guest()) == 1 and "Not a directory" in hook.said, hook.said
    assert hook("release end", guest()) == 0 and names(host) == []
    hook.environment["BIGVASTA_LIBVIRT"] = place
    assert hook("prepare begin", guest()) == 0, hook.said
    assert hook("release end", guest()) == 0 and names(host) == []


def test_an_answer_that_is_lost(host, hook, folder):
    """The domain doesn't start, and its end removes the guest, which was added all the same."""
    through = f"{folder}/through"
    with socket.socket(socket.AF_UNIX) as listener:
        listener.bind(through)
        listener.listen()
        lost = threading.Thread(target=lose_answer, args=(listener, host), daemon=True)
        lost.start()
        hook.environment["BIGVASTA_CONTROL"] = through
        assert hook("prepare begin", guest()) == 4, hook.said
        lost.join(PATIENCE)
    hook.environment["BIGVASTA_CONTROL"] = host.control
    assert names(host) == ["web-1"]
    assert hook("release end", guest()) == 0 and names(host) == []


def test_a_host_that_was_away_at_the_end(program, folder):
    """The domain's next start finds its guest, and has it added with what is said now."""
    host = Host(program, folder, str(folder), "--budget", "480")
    host.lines.next(patience_from_now())
    hook = Hook(host.control, folder)
    assert hook("prepare begin", guest("least='8M'")) == 0, hook.said
    hook.environment["BIGVASTA_CONTROL"] = "/nowhere"
    assert hook("release end", guest()) == 3
    hook.environment["BIGVASTA_CONTROL"] = host.control
    assert hook("prepare begin", guest("least='4M'")) == 0, hook.said
    assert host.guest("web-1")["terms"]["least"] == 4 * MIB
    assert hook("release end", guest()) == 0 and names(host) == []
    assert host.end() == 0, host.said()
