"""What the package of QEMU's device depends on."""

import pytest
from release_qemu import wanted_qemu


@pytest.mark.parametrize(
    "version, least, beyond",
    (
        ("1:10.0.13+ds-0+deb13u1", "1:10.0~", "1:10.1~"),
        ("1:11.0.3+ds-2ubuntu2", "1:11.0~", "1:11.1~"),
        ("1:9.10.0~rc2+ds-1", "1:9.10~", "1:9.11~"),
    ),
)
def test_a_qemu_of_the_same_first_two_numbers(version, least, beyond):
    """Each of them is one that the module begins, and no other one is."""
    wanted = f"qemu-system-x86 (>= {least}), qemu-system-x86 (<< {beyond})"
    assert wanted_qemu(version) == wanted
