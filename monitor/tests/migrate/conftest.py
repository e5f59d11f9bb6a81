"""A Linux guest of Debian 13 that migrates between two QEMUs, each with its backend."""

import os

import linux_kit
import pytest
from bare_qemu import Bare, Between
from linux_migrated import ACCELERATORS, Migrating, Pair
from linux_vmms import Shape

PROGRAMS = (
    "checked/vhost_user_balloon",
    "wrong-backend/vhost_user_balloon",
    "plain/vhost_user_host",
)

pytest.register_assert_rewrite("migrate_demands")

# MiB of the guest.
MEMORY = 256


def pytest_addoption(parser):
    """The option of this suite."""
    parser.addoption("--accelerator", choices=ACCELERATORS, help="how QEMU runs a guest")


@pytest.fixture(scope="session")
def vmm(tmp_path_factory, request):
    """QEMU with the device, and a kernel."""
    asked = request.config.getoption
    folder = str(tmp_path_factory.mktemp("migrate"))
    return Migrating(folder, asked("--suite"), asked("--accelerator"))


@pytest.fixture
def pair(vmm, tmp_path):
    """Returns a guest that runs, and where it may migrate to."""
    pairs = []

    def make(*options, queue_size=128):
        shape = Shape(MEMORY, queues=5, queue_size=queue_size)
        program = linux_kit.built("checked/vhost_user_balloon")
        pairs.append(Pair(vmm, program, tmp_path, shape, options))
        return pairs[-1]

    yield make
    for it in pairs:
        it.close()


@pytest.fixture
def bare(vmm, tmp_path):
    """Returns a QEMU whose processor stands still, and what is between it and its backends."""
    made = []

    def make(*preload, more=()):
        folder = os.path.join(tmp_path, f"bare{len(made)}")
        os.mkdir(folder)
        between = Between(linux_kit.built("checked/vhost_user_balloon"), folder)
        made.append((Bare(vmm.debian, folder, preload, more), between))
        return made[-1]

    yield make
    for qemu, between in made:
        qemu.close(), between.close()
