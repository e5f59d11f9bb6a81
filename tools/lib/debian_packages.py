"""Debian's packages: which are missing, and how they come."""

import os
import shutil
import subprocess
import time

# How often an installation is tried, the seconds between, and those that it waits for another one
# to end.
TRIES, PAUSE, OTHERS = 3, 20, 600


def missing(packages):
    """Returns the packages that aren't installed, each once; none on a system without dpkg, which
    has others."""
    if not packages or not shutil.which("dpkg-query"):
        return []
    said = subprocess.run(
        ["dpkg-query", "-W", "-f", "${Package} ${db:Status-Status}\n", *packages],
        capture_output=True,
        text=True,
    ).stdout
    there = {it.removesuffix(" installed") for it in said.splitlines() if it.endswith(" installed")}
    return [it for it in dict.fromkeys(packages) if it not in there]


def install(packages):
    """Installs packages as root, and says so; returns those that are missing afterwards."""
    if not packages or os.geteuid() != 0 or not shutil.which("apt-get"):
        return packages
    apt_get = ["apt-get", "-q", "-o", f"DPkg::Lock::Timeout={OTHERS}"]
    for tried in range(TRIES):
        time.sleep(PAUSE if tried else 0)
        print(f"installs, by apt-get: {' '.join(packages)}", flush=True)
        for words in (["update"], ["install", "-y", "--no-install-recommends", *packages]):
            subprocess.run(
                [*apt_get, *words],
                stdin=subprocess.DEVNULL,
                env={**os.environ, "DEBIAN_FRONTEND": "noninteractive"},
            )
        packages = missing(packages)
        if not packages:
            break
    return packages
