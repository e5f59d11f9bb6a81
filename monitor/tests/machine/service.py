"""What is done in the machine to the installed service, while a guest is at work whose memory is
charged to the cgroup of its limit. After each step the guest is at work on the client that it had,
and has read all bytes as they were written.

    service.py begin | processes | lender | restart | upgrade
"""

import os
import random
import re
import signal
import subprocess
import sys
import time

from bigvasta.connection import CONTROL, Connection
from bigvasta.statuses import Away, Unclear
from vhost_client import PAGE
from waiting import PATIENCE, eventually

HERE = os.path.dirname(os.path.realpath(__file__))
HOST, GUEST, NAME = "bigvasta-host", "guest-web-1", "web-1"

# Where the guest's answers are; the pages that go into its balloon and out of it in each turn, and
# those of a request.
ANSWERS, TURN, OF_REQUEST = f"/run/{GUEST}", 1024, 16

# How often the guest's process is killed.
KILLS = 20

# The guest's client, and its cgroup, whose limit the host's user may write.
CGROUP = f"/sys/fs/cgroup/system.slice/{GUEST}.service"
CLIENT = (
    f"yes turn 0 {TURN} {OF_REQUEST} | python3 -B {HERE}/../host/charged_guest.py /run/bigvasta "
    f"{NAME} > {ANSWERS}"
)


def run(*words):
    """Runs a program that has to succeed; returns what it printed."""
    ran = subprocess.run(
        words, stdin=subprocess.DEVNULL, capture_output=True, text=True, timeout=PATIENCE
    )
    assert (
        ran.returncode == 0
    ), f"{' '.join(words)}: {ran.returncode}: {ran.stderr.strip() or ran.stdout.strip()}"
    return ran.stdout


def ask(request, **fields):
    """Returns what the host answers; nothing while it isn't there."""
    try:
        with Connection(CONTROL) as it:
            return it.ask(request, **fields)
    except (Away, Unclear):
        return None


def guest():
    """Returns what the host says of the guest."""
    return eventually(lambda: ask("guest", name=NAME), "no host answers")["guest"]


def process_of(unit):
    """Returns the number of a unit's main process."""
    return int(run("systemctl", "show", "--value", "-p", "MainPID", unit))


def answers():
    """Returns what the guest has said after each turn."""
    with open(ANSWERS, encoding="ascii") as said:
        return said.read().split("\n")[1:-1]


def its(name):
    """Returns the lines of a file of the guest's cgroup."""
    with open(f"{CGROUP}/{name}", encoding="ascii") as lines:
        return lines.read().splitlines()


def goes_on(before=None):
    """Demands that the guest makes two turns more from now on, with all bytes right; says how many
    there are."""
    begun = len(answers())
    eventually(
        lambda: len(answers()) >= begun + 2,
        lambda: f"the guest does nothing more after {begun} turns: {guest()}",
    )
    wrong = [it for it in answers() if it != "right"]
    assert not wrong, wrong
    now = (process_of(GUEST), its("cgroup.procs"))
    assert before in (None, now), f"the client was {before}, and is {now}"
    assert "oom_kill 0" in its("memory.events") and its("memory.max") != ["max"]
    print(f"{len(answers())} turns right", flush=True)
    return now


def begin():
    """Starts the service, which is of an older version, and a guest at work."""
    with open("/etc/bigvasta/host.conf", encoding="utf-8") as file:
        text = file.read()
    with open("/etc/bigvasta/host.conf", "w", encoding="utf-8") as file:
        file.write(re.sub(r"(?m)^# budget = .*", "budget = 64M", text))
    os.makedirs(f"/etc/systemd/system/{HOST}.service.d")
    with open(f"/etc/systemd/system/{HOST}.service.d/limits.conf", "w", encoding="utf-8") as file:
        file.write("[Service]\nProtectControlGroups=no\n")
    run("systemctl", "daemon-reload")
    run("systemctl", "start", HOST)
    run("bigvasta", "add", NAME, "strict=yes", "overhead=32M", f"limit=cgroup:{CGROUP}")
    with open(ANSWERS, "w", encoding="ascii"):
        path = os.environ["PYTHONPATH"]
    run(
        "systemd-run",
        "--quiet",
        f"--unit={GUEST}",
        f"--setenv=PYTHONPATH={path}",
        f"--property=ExecStartPre=chown bigvasta {CGROUP}/memory.max",
        "--property=MemoryAccounting=yes",
        "bash",
        "-c",
        CLIENT,
    )
    goes_on()
    assert guest()["limit"] > 0


def amid_inflates():
    """Waits until the guest's balloon grows; returns what the host says of it then."""
    seen = [guest()]

    def grows():
        seen.append(guest())
        return seen[-2]["ballooned"] < seen[-1]["ballooned"] < TURN * PAGE and seen[-1]["process"]

    eventually(grows, "the balloon never grows")
    return seen[-1]


def processes():
    """Kills the guest's process, again and again; another one takes over."""
    before, came = goes_on(), guest()["counters"]["clients"]
    for number in range(KILLS):
        time.sleep(random.random() * 0.2)
        seen = amid_inflates()
        os.kill(seen["process"], signal.SIGKILL)
        eventually(
            lambda: guest()["process"] not in (0, seen["process"]), "nobody takes over the guest"
        )
        begun = len(answers())
        eventually(lambda: len(answers()) > begun, "the guest does nothing more")
        print(
            f"killed {number + 1} times, with {seen['ballooned'] // PAGE} pages in its balloon",
            flush=True,
        )
    goes_on(before)
    assert guest()["counters"]["clients"] == came


def another_lender(act):
    """Does something after which another lender is there, which takes over the guest and its
    process."""
    before, process, lender = goes_on(), guest()["process"], process_of(HOST)
    act(lender)
    eventually(lambda: process_of(HOST) not in (0, lender), "no other lender comes")
    eventually(
        lambda: guest()["state"] == "ready" and guest()["answers"],
        lambda: f"the lender doesn't go on: {guest()}",
    )
    assert guest()["process"] == process
    goes_on(before)


def lender():
    """Kills the lender, which the service manager restarts."""
    another_lender(lambda process: os.kill(process, signal.SIGKILL))
    assert run("systemctl", "show", "--value", "-p", "NRestarts", HOST).strip() == "1"


def restart():
    """Restarts the service; the service manager reloads its units before."""
    run("systemctl", "daemon-reload")
    another_lender(lambda _: run("systemctl", "restart", HOST))


def upgrade():
    """Puts the programs of the package in the place of older ones, and has the host and the guest
    be of them."""
    before, process, lender, old = (
        goes_on(),
        guest()["process"],
        process_of(HOST),
        guest()["version"],
    )
    run(
        "sh",
        "-c",
        (
            "dpkg-deb --fsys-tarfile /srv/machine/package/*.deb | tar -x -C / --wildcards "
            "'./usr/bin/vhost_user_*'"
        ),
    )
    new = run("vhost_user_host", "--version").split()[1]
    said = run("bigvasta", "upgrade")
    assert said.splitlines() == [f"{it}: {old} -> {new}" for it in ("host", NAME)], said
    assert old != new and guest()["version"] == new
    eventually(lambda: guest()["process"] not in (0, process), "the guest's process is the old one")
    assert process_of(HOST) == lender
    goes_on(before)


if __name__ == "__main__":
    globals()[sys.argv[1]]()
