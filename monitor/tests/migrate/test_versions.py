"""Tests of QEMUs of two versions: of the module in one that it wasn't built for, and of a guest
that migrates to the other one."""

import re
import subprocess
from contextlib import closing

import linux_kit
import pytest
from linux_migrated import DEBIAN, Migrating, Pair, preloaded
from linux_packages import Missing
from linux_vmms import Shape
from migrate_demands import SMALL, demand_obeys, demand_twice, with_balloon
from waiting import PATIENCE

# A Debian whose QEMU is newer than Debian 13's, and a suite of Ubuntu for whose QEMU there is a
# module, too; what both QEMUs have of a machine.
NEWER, OF_UBUNTU, MACHINE = "sid", "stonking", "pc-q35-10.0"


def test_a_qemu_of_another_version(vmm):
    """It ends as it begins, by one line that names both."""
    other = NEWER if vmm.debian == DEBIAN else DEBIAN
    words = [*preloaded(vmm.debian, other), "--version"]
    ran = subprocess.run(words, capture_output=True, text=True, timeout=PATIENCE)
    assert (ran.returncode, ran.stdout) == (2, "")
    line = r"vhost-user-balloon was built for QEMU (\S+), and this is (\S+)\n"
    built_for, found = re.fullmatch(line, ran.stderr).groups()
    assert built_for != found
    ran = subprocess.run([*vmm.program, "--version"], capture_output=True, text=True)
    assert f"version {built_for}." in ran.stdout


class Pinned(Migrating):
    """QEMU with a machine of a version."""

    def machine(self, shape):
        """Returns the guest's command but for the device."""
        return [it.replace("q35,", f"{MACHINE},") for it in super().machine(shape)]


class Across(Pair):
    """A guest of one QEMU, which may migrate to another one."""

    def __init__(self, vmms, *words):
        self.vmms = vmms
        super().__init__(vmms[0], *words)

    def side(self, incoming):
        """Starts one more side, by the QEMU whose turn it is."""
        self.vmm = self.vmms[self.number % 2]
        return super().side(incoming)


def test_a_guest_between_two_versions(vmm, tmp_path):
    """It goes to the other version, and comes back."""
    other = OF_UBUNTU if vmm.debian == DEBIAN else DEBIAN
    folders = [tmp_path / it for it in (vmm.debian, other)]
    for it in folders:
        it.mkdir()
    try:
        vmms = [Pinned(str(it), it.name) for it in folders]
    except Missing as missing:
        pytest.skip(str(missing))
    shape = Shape(256, queues=5, queue_size=128)
    program = linux_kit.built("checked/vhost_user_balloon")
    with closing(Across(vmms, program, tmp_path, shape)) as pair:
        sums, before = with_balloon(pair), pair.source.held_mib()
        demand_twice(pair, sums, before)
        assert pair.source.size_mib() == SMALL
        demand_obeys(pair.source)
