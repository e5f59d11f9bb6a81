"""Fetches Debian's packages for a guest into a cache of this repository: nothing is installed, and
the machine's own lists stay."""

import glob
import os
import re
import shutil
import subprocess

ROOT = os.path.realpath(os.path.join(os.path.dirname(__file__), "../../.."))
CACHE = os.path.join(ROOT, ".cache", "linux")

# Where packages of another Debian than the machine's come from, and those of suites of Ubuntu, and
# the seconds in which each has to answer each of two requests.
MIRROR, ANSWERS_IN = "http://deb.debian.org/debian", 2
UBUNTU, OF_UBUNTU = "http://archive.ubuntu.com/ubuntu", ("questing", "resolute", "stonking")

# Where a Debian has crates.
CRATES = "usr/share/cargo/registry"


class Fault(Exception):
    """Why a run came to nothing, in one line."""


class Missing(Fault):
    """What the machine lacks, and how to get it."""


def need(program, package):
    """Returns the path of a program, or says which package has it."""
    path = shutil.which(program)
    if not path:
        raise Missing(f"{program} isn't there: apt-get install {package}")
    return path


def last_line(text):
    """Returns the last line that says something."""
    return next((it.strip() for it in reversed(text.splitlines()) if it.strip()), "")


def keyring():
    """Returns the file of Debian's keys."""
    found = glob.glob("/usr/share/keyrings/debian-archive-keyring.*")
    if not found:
        raise Missing("Debian's keys aren't there: apt-get install debian-archive-keyring")
    return sorted(found)[0]


def source_of(suite):
    """Returns what a line of apt-get's sources has of a suite, whose keys for Ubuntu are a package
    of Debian 13."""
    if suite not in OF_UBUNTU:
        return f"[signed-by={keyring()}] {MIRROR} {suite} main"
    keys = fetch("ubuntu-keys", lambda _: ["ubuntu-keyring"], "trixie")
    path = one_of(keys, "usr/share/keyrings/ubuntu-archive-keyring.gpg")
    return f"[signed-by={path}] {UBUNTU} {suite} main universe"


def apt_of(suite):
    """Returns the environment in which apt-get knows the packages of another Debian, by lists of
    its own in the cache, or of a suite of Ubuntu; the machine's own where none is named."""
    if suite is None:
        return None
    folder = os.path.join(CACHE, f"apt-{suite}")
    os.makedirs(os.path.join(folder, "lists", "partial"), exist_ok=True)
    files = {
        "sources.list": "".join(f"{kind} {source_of(suite)}\n" for kind in ("deb", "deb-src")),
        "status": "",
        "apt.conf": "".join(
            f'{name} "{it}";\n'
            for name, it in (
                ("Dir::Etc::SourceList", f"{folder}/sources.list"),
                ("Dir::Etc::SourceParts", "-"),
                ("Dir::State::Lists", f"{folder}/lists"),
                ("Dir::State::Status", f"{folder}/status"),
                ("Dir::Cache", folder),
                ("APT::Sandbox::User", "root"),
                ("Acquire::http::Timeout", ANSWERS_IN),
                ("Acquire::Retries", 0),
            )
        ),
    }
    for name, text in files.items():
        with open(os.path.join(folder, name), "w", encoding="utf-8") as file:
            file.write(text)
    environment = {**os.environ, "APT_CONFIG": f"{folder}/apt.conf"}
    ran = subprocess.run(
        ["apt-get", "update", "--error-on=any"], capture_output=True, text=True, env=environment
    )
    if ran.returncode != 0:
        raise Missing(f"apt-get finds no packages of {suite}: {last_line(ran.stderr)}")
    return environment


def fetch(name, packages, suite=None):
    """Returns a folder of the cache with these packages of this machine's Debian unpacked, or of
    another one; `packages` says which, the first time, by apt-get's environment."""
    if suite is not None and not suite.isalnum():
        raise Missing(f"{suite!r} is no name of a Debian: bookworm, trixie or sid")
    root = os.path.join(CACHE, f"{name}-{suite}" if suite else name)
    if os.path.isdir(root):
        return root
    need("apt-get", "apt"), need("dpkg-deb", "dpkg")
    part = f"{root}.{os.getpid()}"
    os.makedirs(part)
    try:
        environment = apt_of(suite)
        wanted = packages(environment)
        ran = subprocess.run(
            ["apt-get", "download", *wanted],
            cwd=part,
            capture_output=True,
            text=True,
            env=environment,
        )
        archives = glob.glob(os.path.join(part, "*.deb"))
        if ran.returncode != 0 or len(archives) < len(wanted):
            raise Missing(
                f"apt-get download {wanted[0]} ..: {last_line(ran.stderr)}: apt-get update, on "
                "Debian for amd64"
            )
        for archive in archives:
            subprocess.run(["dpkg-deb", "-x", archive, part], check=True)
            os.remove(archive)
        os.rename(part, root)
    except OSError:
        if not os.path.isdir(root):
            raise
        # Another run has fetched them meanwhile.
    finally:
        shutil.rmtree(part, ignore_errors=True)
    return root


def one_of(root, *names):
    """Returns the file of a package that is at one of these places: which, depends on the
    Debian."""
    for name in names:
        found = glob.glob(os.path.join(root, name))
        if found:
            return found[0]
    raise Fault(f"{os.path.relpath(root, ROOT)} has no {' and no '.join(names)}")


def fetch_uml(suite=None):
    """Returns a folder with User Mode Linux and a busybox for its guest; one of another Debian has
    its C library, too."""
    return fetch(
        "uml", lambda _: ["user-mode-linux", "busybox-static", *(["libc6"] if suite else [])], suite
    )


def libc_of(root):
    """Returns the loader and the C library among these packages."""
    return [
        one_of(root, *(f"{it}lib/x86_64-linux-gnu/{name}" for it in ("", "usr/")))
        for name in ("ld-linux-x86-64.so.2", "libc.so.6")
    ]


def busybox_of(root):
    """Returns the busybox among these packages: from Debian 13 on there is no /bin of its own."""
    return one_of(root, "bin/busybox", "usr/bin/busybox")


def kernel_packages(environment):
    """Returns the packages with the kernel of a guest under QEMU, and with a busybox for it."""
    words = ["apt-cache", "depends", "--recurse", "--important", "linux-image-cloud-amd64"]
    said = subprocess.run(words, capture_output=True, text=True, env=environment).stdout
    kernel = sorted(set(re.findall(r"(?m)^linux-(?:image|binary|modules)-\d\S*", said)))
    if not kernel:
        raise Missing(
            "apt-cache knows no linux-image-cloud-amd64, whose kernel a guest of QEMU boots: "
            "apt-get update, on amd64"
        )
    return [*kernel, "busybox-static"]


def fetch_kernel(suite=None):
    """Returns a folder with a kernel for a guest under QEMU, and a busybox."""
    return fetch("kernel", kernel_packages, suite)


def wanted_by(package, environment):
    """Returns a package and all that it wants besides, as apt-get knows them where nothing is
    installed."""
    words = ["apt-get", "install", "-s", "--no-install-recommends", package]
    ran = subprocess.run(words, capture_output=True, text=True, env=environment)
    packages = [it.split()[1] for it in ran.stdout.splitlines() if it.startswith("Inst ")]
    if not packages:
        raise Missing(
            f"apt-get finds no {package} to fetch: {last_line(ran.stderr) or 'on Debian for amd64'}"
        )
    return packages


def fetch_qemu(suite):
    """Returns a folder with QEMU of this Debian, and all libraries that it is linked to."""
    return fetch("qemu", lambda environment: wanted_by("qemu-system-x86", environment), suite)


def rust_vmm_crates():
    """Returns a folder with the sources of rust-vmm's crates for vhost-user, and of all that they
    are made of: the machine's, or Debian 13's."""
    if glob.glob(f"/{CRATES}/vhost-user-backend-[0-9]*"):
        return f"/{CRATES}"
    crates = lambda environment: [
        it
        for it in wanted_by("librust-vhost-user-backend-dev", environment)
        if it.startswith("librust-")
    ]
    return os.path.join(fetch("rust-vmm", crates, "trixie"), CRATES)
