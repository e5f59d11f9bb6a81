"""`bigvasta watch` in a real terminal: tmux sends the keys and shows the screen."""

import os
import shlex
import shutil
import subprocess

import pytest
from hosts import Host
from installed import CLIENT
from waiting import PATIENCE, eventually, patience_from_now

PAGE, MIB = 4096, 1 << 20
ENVIRONMENT = {**os.environ, "TERM": "screen-256color", "LC_ALL": "C.UTF-8"}

pytestmark = pytest.mark.skipif(
    not shutil.which("tmux"), reason="tmux isn't there: apt-get install tmux"
)


class Terminal:
    """A terminal of 100 columns and 14 lines with a server of its own, in which the client program
    runs."""

    def __init__(self, folder, control, *words, locale="C.UTF-8", kind="screen-256color"):
        self.socket = f"{folder}/.tmux"
        # No daemon, so that it ends with this process, however this one ends.
        self.server = subprocess.Popen(
            [
                "setpriv",
                "--pdeathsig",
                "TERM",
                "tmux",
                "-S",
                self.socket,
                "-f",
                "/dev/null",
                "-u",
                "-D",
            ],
            env=ENVIRONMENT,
        )
        eventually(lambda: os.path.exists(self.socket), "tmux doesn't start")
        program = [
            "env",
            f"PYTHONPATH={CLIENT}",
            f"LC_ALL={locale}",
            f"TERM={kind}",
            "/usr/bin/python3",
            "-B",
            "-m",
            "bigvasta",
            "watch",
            "--control",
            control,
            *words,
        ]
        command = f'trap : INT; {shlex.join(program)}; echo "ended with $?"; sleep 60'
        self.tmux("-u", "new-session", "-d", "-x", "100", "-y", "14", "/bin/sh", "-c", command)

    def tmux(self, *words):
        """Runs a command of tmux; returns what it printed."""
        return subprocess.run(
            ["tmux", "-S", self.socket, *words],
            capture_output=True,
            text=True,
            timeout=PATIENCE,
            env=ENVIRONMENT,
            check=True,
        ).stdout

    def screen(self):
        """Returns the lines that the terminal shows."""
        return [it.rstrip() for it in self.tmux("capture-pane", "-p").split("\n")]

    def key(self, name):
        """Presses a key."""
        self.tmux("send-keys", name)

    def resize(self, columns, lines):
        """Changes the size."""
        self.tmux("resize-window", "-x", str(columns), "-y", str(lines))

    def close(self):
        """Ends it, and what runs in it."""
        self.server.terminate()
        self.server.wait(PATIENCE)


@pytest.fixture
def opened(folder):
    """Opens a terminal in which the client program watches a socket; it is closed at the end of the
    test."""
    here = []

    def begin(*words, **options):
        here.append(Terminal(folder, *words, **options))
        return here[-1]

    yield begin
    for it in here:
        it.close()


@pytest.fixture
def terminal(host, opened):
    """A terminal that watches a host."""
    return opened(host.control, "--interval", "0.2")


def shows(terminal, wanted):
    """Waits until a line of the screen is this, or begins so where it ends in two dots."""

    def found():
        lines = terminal.screen()
        return any(
            it.startswith(wanted[:-2]) if wanted.endswith("..") else it == wanted for it in lines
        )

    eventually(found, lambda: "\n".join([f"no line {wanted!r} in:", *terminal.screen()]))


def test_guests_keys_and_sizes(host, arrive, terminal):
    shows(terminal, "budget 480  held 0  lent 0  promised 0 MiB  tier none")
    shows(terminal, "0 guests, by name")
    host.ask("floor", bytes=0)
    arrive("web-2"), arrive("web-1")
    eventually(lambda: all(host.guest(it)["answers"] for it in ("web-1", "web-2")))
    host.ask("budget", bytes=136 * PAGE)
    eventually(lambda: host.guest("web-2")["target"] == 60 * PAGE)
    shows(terminal, "guest          held   loan target  spare  memory")
    # Its 128 pages are the whole bar: 68 are held and kept, 60 of them it can spare, and the target
    # leaves it 68.
    shows(
        terminal,
        "web-2           0.5    0.5    0.2    0.2  ██████████████████████│▒▒▒▒▒▒▒▒▒▒▒▒▒▒▒▒▒▒]",
    )
    lines = terminal.screen()
    assert [it.split()[0] for it in lines[5:7]] == ["web-1", "web-2"], lines
    assert (
        lines[13] == "█ held  ▒ of it spare  ░ lent  │ left by the target   q quit  s sort  p pause"
    )
    terminal.key("s")
    shows(terminal, "2 guests, by held")
    terminal.key("s")
    shows(terminal, "2 guests, by waits")
    terminal.key("p")
    shows(terminal, "2 guests, by waits, paused")
    host.ask("budget", bytes=480 * MIB)
    eventually(lambda: host.status()["budget"] == 480 * MIB)
    assert terminal.screen()[0].startswith("budget 0.5  held 1.0"), "a paused view continues"
    terminal.key("p")
    shows(terminal, "budget 480  held 1.0..")
    terminal.key("Down")
    eventually(lambda: terminal.screen()[5].startswith("web-2"), lambda: terminal.screen())
    terminal.key("Up")
    eventually(lambda: terminal.screen()[5].startswith("web-1"), lambda: terminal.screen())
    terminal.resize(40, 8)
    eventually(
        lambda: terminal.screen()[7] == "█ held  ▒ of it spare  ░ lent  │ left by",
        lambda: terminal.screen(),
    )
    terminal.key("q")
    shows(terminal, "ended with 0")


# A locale without UTF-8, one that this machine doesn't have, and a terminal that can't hide its
# cursor.
POOR = ({"locale": "C"}, {"locale": "xx_YY.UTF-8"}, {"locale": "C", "kind": "vt100"})


@pytest.mark.parametrize("options", POOR)
def test_a_terminal_without_utf8(host, opened, options):
    terminal = opened(host.control, **options)
    shows(terminal, "# held  = of it spare  . lent  | left by the target   q quit  s sort  p pause")
    terminal.key("C-c")
    shows(terminal, "ended with 0..")  # of vt100 the last line stays


def test_a_host_that_goes_and_comes_back(program, folder, opened):
    host = Host(program, folder, str(folder), "--budget", "480")
    host.lines.next(patience_from_now())
    terminal = opened(host.control, "--interval", "0.2")
    shows(terminal, "0 guests, by name")
    assert host.end() == 0
    shows(terminal, "no host answers, and this was its last word: ..")
    assert terminal.screen()[0] == "budget 480  held 0  lent 0  promised 0 MiB  tier none"
    host = Host(program, folder, str(folder), "--budget", "400")
    host.lines.next(patience_from_now())
    shows(terminal, "budget 400  held 0  lent 0  promised 0 MiB  tier none")
    shows(terminal, "0 guests, by name")
    terminal.key("q")
    shows(terminal, "ended with 0")
    assert host.end() == 0


def test_a_terminal_that_is_not_known(host, opened):
    terminal = opened(host.control, kind="none-of-those")
    shows(terminal, "bigvasta: watch can't be shown by this terminal: setupterm: ..")
    shows(terminal, "ended with 2")


def test_no_host(folder, opened):
    terminal = opened(f"{folder}/none")
    shows(terminal, f"bigvasta: no host answers at {folder}/none..")
    shows(terminal, "ended with 3")
