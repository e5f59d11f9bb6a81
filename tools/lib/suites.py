"""The suites of tests: what each is about, what pytest is told, and Debian's packages that it
wants."""

from typing import NamedTuple

# The packages of all suites, and of a host's package.
PYTEST = "python3-pytest python3-pytest-timeout python3-pytest-xdist"
DAEMONS = "make gcc libc6-dev pkg-config libjansson-dev libinih-dev libsystemd-dev libseccomp-dev"

# For a suite whose tests don't disturb each other.
AT_ONCE = ("-q", "-n", "auto")


class Suite(NamedTuple):
    """What it tests; the words for pytest; the packages that it wants besides, and those without
    which some of its tests are skipped."""

    about: str
    words: tuple
    packages: str = ""
    more: str = ""
    over_library: bool = True


SUITES = {
    "vhost-user": Suite(
        "the backend of one guest, by a client that isn't Linux and isn't always correct",
        ("monitor/tests/vhost_user", *AT_ONCE),
    ),
    "pci-proxy": Suite(
        "the backend on PCI, by a client in the place of QEMU",
        ("monitor/tests/pci_proxy", *AT_ONCE),
    ),
    "control": Suite(
        (
            "a host that an operator runs: its control socket, configuration and service, and the "
            "client program"
        ),
        ("monitor/tests/control", "-q"),
        more="tmux prometheus python3-prometheus-client man-db systemd",
    ),
    "host": Suite(
        "the host with a process for each guest, by clients that aren't Linux",
        ("monitor/tests/host", "--ignore=monitor/tests/host/test_runs.py", *AT_ONCE),
        "python3-pandas",
        "python3-fusepy",
    ),
    "fuzz": Suite(
        (
            "coverage-guided fuzzing of both programs of a host; `--seconds N` of the processor "
            "(600), `--keep`"
        ),
        ("monitor/tests/fuzz", "-v", "-rP"),
        "clang libclang-rt-14-dev llvm",
    ),
    "host-runs": Suite(
        "its runs with Linux guests at work, and with clients; `--times K`; `-k shift` for some",
        ("monitor/tests/host/test_runs.py", "-v", "-rP"),
    ),
    "plan": Suite(
        (
            "the planner of the client program, `bigvasta plan`, over days worked out by hand and "
            "random ones"
        ),
        ("monitor/tests/plan", *AT_ONCE),
        "python3-pandas python3-hypothesis",
        "python3-matplotlib",
    ),
    "fleet": Suite(
        (
            "its fleets: placement, processes, and a Dask scheduler with workers in network "
            "namespaces, one of them killed (as root)"
        ),
        ("monitor/tests/fleet", "-q"),
        "python3-pandas",
        "python3-distributed iproute2",
    ),
    "machine": Suite(
        (
            "limits by cgroups of the second version, and the installed service under systemd, in "
            "a Debian 13 that QEMU boots (the first time as root)"
        ),
        ("monitor/tests/machine", "-v", "-rP"),
        "dpkg-dev debhelper dh-python git mmdebstrap e2fsprogs",
    ),
    "linux": Suite(
        (
            "Debian's own Linux and driver on both, under User Mode Linux; `--vmm qemu`: under "
            "QEMU; `--help` names its words"
        ),
        ("monitor/tests/linux/test_linux.py", "-v", "-rP"),
    ),
    "migrate": Suite(
        (
            "a Linux guest that migrates between two QEMUs of Debian 13 (`--suite NAME`: of "
            "another one, or of Ubuntu), or is saved, by emulation (`--accelerator kvm`: by KVM): "
            "all its memory is compared"
        ),
        ("monitor/tests/migrate", "-v", "-rP"),
        "ninja-build python3-venv libglib2.0-dev libfdt-dev zlib1g-dev patch",
    ),
    "rust-vmm": Suite(
        "the backend of one guest, by the frontend of rust-vmm's crate `vhost`, and the example "
        "on `vhost-user-backend`: Debian 13's crates, which "
        "are fetched where they aren't installed",
        ("monitor/tests/rust_vmm", "-q"),
        "cargo",
    ),
    "linux-kit": Suite(
        "what the tools that boot a Linux say where something is missing",
        ("monitor/tests/linux/test_kit.py", "monitor/tests/linux/test_machine_kit.py", "-q"),
        over_library=False,
    ),
    "tools": Suite(
        "the tools that judge, each over a planted fault",
        ("tools/tests", "--ignore=tools/tests/test_draw_run.py", *AT_ONCE),
        "git clang libc6-dev-arm64-cross cargo librust-vm-memory-dev clang-format black pyflakes3",
        over_library=False,
    ),
    "draw-run": Suite(
        (
            "the numbers of tools/draw-run beside numbers worked out by hand: ./vb_sim answers, "
            "or the program that VB_SIM names"
        ),
        ("tools/tests/test_draw_run.py", *AT_ONCE),
        more="python3-matplotlib",
        over_library=False,
    ),
}


def packages_of(name, all_of_it=False):
    """Returns the packages that a suite wants; those of the tests that are skipped without them,
    too."""
    suite = SUITES[name]
    return [
        *PYTEST.split(),
        *DAEMONS.split(),
        *suite.packages.split(),
        *(suite.more.split() if all_of_it else ()),
    ]
