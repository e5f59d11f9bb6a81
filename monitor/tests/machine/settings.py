"""What an operator changes of the installed service, and in its file, under the service manager,
while a guest is at work.

    settings.py stays | file | journal
"""

import re
import subprocess
import sys

from service import HOST, NAME, goes_on, guest, process_of, run
from waiting import PATIENCE, eventually

FILE = "/etc/bigvasta/host.conf"


def config():
    """Returns the keys of the host and of its guest, as it says them."""
    lines = run("bigvasta", "config").splitlines()
    return dict(it.split(" = ", 1) for it in lines if " = " in it)


def has(**wanted):
    """Waits until the host says these keys so."""
    eventually(lambda: {it: config().get(it) for it in wanted} == wanted, lambda: str(config()))


def restarted():
    """Restarts the service, which takes over the guest."""
    run("systemctl", "restart", HOST)
    eventually(lambda: guest()["state"] == "ready" and guest()["answers"], lambda: str(guest()))


def stays():
    """What is changed is there after a restart, but for what is to end with that."""
    before, budget = goes_on(), config()["budget"]
    run("bigvasta", "budget", "80M"), run("bigvasta", "floor", "9M", "--until-restart")
    run("bigvasta", "guest", NAME, "weight=3")
    has(budget="80M", floor="9M", weight="3")
    restarted()
    has(budget="80M", floor="12M", weight="3")
    assert f"budget is 80M, and {budget} in the file" in run("bigvasta", "status")
    run("bigvasta", "budget", budget)
    goes_on(before)


def reloaded():
    """Reloads the service; returns the status, and what its journal has of that."""
    since = run("date", "+%Y-%m-%d %H:%M:%S.%6N").strip()
    ran = subprocess.run(("systemctl", "reload", HOST), capture_output=True, timeout=PATIENCE)
    return ran.returncode, run("journalctl", "-u", HOST, "-o", "cat", f"--since={since}")


def file():
    """A file that is wrong fails its reload, which names the line, and nothing changes; one that
    is right is what the host has once the reload has ended."""
    before, lender = goes_on(), process_of(HOST)
    with open(FILE, encoding="utf-8") as its:
        text = its.read()
    number = 1 + next(at for at, it in enumerate(text.splitlines()) if it.startswith("step = "))
    for step, well in (("none", False), ("6", True), ("8", True)):
        with open(FILE, "w", encoding="utf-8") as its:
            its.write(re.sub(r"(?m)^step = .*", f"step = {step}", text))
        had = config()
        status, said = reloaded()
        assert (status == 0) == well, said
        assert config()["step"] == (step if well else had["step"])
        assert well or f"line {number}: step: " in said, said
    assert process_of(HOST) == lender
    goes_on(before)


def journal():
    """Who has changed what, from what to what, is in the journal."""
    run("bigvasta", "guest", NAME, "weight=4")
    said = run("journalctl", "-u", HOST, "-o", "cat")
    changed = rf"changed by user 0 .*, process \d+: guest {NAME}: weight: 3 -> 4$"
    assert re.search(rf"(?m){changed}", said), said
    run("bigvasta", "guest", NAME, "weight=1")


if __name__ == "__main__":
    globals()[sys.argv[1]]()
