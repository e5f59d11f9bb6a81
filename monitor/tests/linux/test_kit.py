"""What the tools that boot a Linux say where something is missing: in one line, at once, without a
Linux."""

import os
import socket
import subprocess
import time

import linux_guest
import linux_migrated
import linux_packages
import linux_vmms
import pytest
from waiting import PATIENCE

OLD_QEMU = "whose x-pci-proxy-dev ends by a signal: QEMU 7 to 10 is wanted, or --vmm qemu"


def program(folder, name, text):
    """Writes a program into a folder; returns its path."""
    path = folder / name
    path.write_text(f"#!/bin/sh\n{text}\n", encoding="utf-8")
    path.chmod(0o755)
    return str(path)


@pytest.fixture
def boot(tmp_path):
    """Boots a guest whose console says this, and continues for a while; returns why it isn't ready,
    if it isn't."""
    guests = []

    def make(text):
        guest = linux_guest.Guest(
            [program(tmp_path, "guest", f"{text}\nread line")], None, (), str(tmp_path), 0
        )
        guests.append(guest)
        guest.memory_file = lambda: os.open(tmp_path, os.O_RDONLY)
        begin = time.monotonic()
        try:
            guest.boot()
        except linux_guest.Unbound as said:
            return str(said)
        finally:
            assert time.monotonic() - begin < PATIENCE
        return None

    yield make
    for it in guests:
        it.close(), it.process.stdin.close(), it.process.stdout.close()


@pytest.mark.parametrize(
    "console, why",
    (
        (
            "echo Linux; echo 'UNBOUND: 5 VQs requested/probe failed with error -22'",
            (
                "the guest boots, but its driver has no device: 5 VQs requested/probe failed with "
                "error -22"
            ),
        ),
        ("echo Linux; echo READY", None),
    ),
)
def test_a_driver_that_has_no_device(boot, console, why):
    assert boot(console) == why


@pytest.mark.parametrize("place", ("bin", "usr/bin"))
def test_the_busybox_of_each_debian(tmp_path, place):
    (tmp_path / place).mkdir(parents=True)
    with pytest.raises(linux_packages.Fault, match="no bin/busybox and no usr/bin/busybox"):
        linux_packages.busybox_of(str(tmp_path))
    path = tmp_path / place / "busybox"
    path.touch()
    assert linux_packages.busybox_of(str(tmp_path)) == str(path)


FAKE_QEMU = """case "$*" in
--version) echo "QEMU emulator version {version}" ;;
*"-device help") kill -ABRT $$ ;;
*"-device {device},help") echo "{device} options:" ;;
*,help) echo "Device not found" >&2 ;;
*"-device {device}") echo "{tried}" >&2; exit 1 ;;
esac"""


@pytest.fixture
def qemu_of(tmp_path, monkeypatch):
    """Puts a QEMU of this version and with this device first on the path, which answers one that
    would create it so, and ends by a signal where it is to list all devices; returns its own
    path."""
    monkeypatch.setenv("PATH", f"{tmp_path}:{os.environ['PATH']}")
    return lambda version, device, tried="No 'PCI' bus found": program(
        tmp_path,
        "qemu-system-x86_64",
        FAKE_QEMU.format(version=version, device=device, tried=tried),
    )


@pytest.fixture
def no_debian(tmp_path, monkeypatch):
    """A machine whose cache is empty, and that reaches no mirror of Debian's."""
    monkeypatch.setattr(linux_packages, "CACHE", str(tmp_path / "cache"))
    monkeypatch.setattr(linux_packages, "MIRROR", "http://127.0.0.1:9/debian")


PROXY, GENERIC = "x-pci-proxy-dev", "vhost-user-test-device-pci"


@pytest.mark.parametrize("version", ("11.1.3 (Debian 1:11.1.3+ds-1)", "11.0.0"))
def test_a_qemu_whose_proxy_ends_by_a_signal(qemu_of, version, tmp_path):
    path = qemu_of(version, PROXY)
    with pytest.raises(linux_packages.Missing) as missing:
        linux_vmms.QemuProxy(str(tmp_path))
    assert str(missing.value) == f"{path} is of version {version.split()[0]}, {OLD_QEMU}"


@pytest.mark.parametrize(
    "vmm, version, device",
    (
        (linux_vmms.QemuProxy, "10.2.1", PROXY),
        (linux_vmms.QemuProxy, "7.2.18", PROXY),
        (linux_vmms.Qemu, "10.2.1", GENERIC),
        (linux_vmms.Qemu, "12.0.0", "vhost-user-device-pci"),
    ),
)
def test_an_installed_qemu_that_does(qemu_of, vmm, version, device):
    path = qemu_of(version, device)
    assert vmm.find(object.__new__(vmm)) == ([path], device)


NOT_TO_BE_CREATED = (
    "10.0.2",
    "vhost-user-device-pci",
    "Parameter 'driver' expects a pluggable device type",
)


@pytest.mark.parametrize(
    "vmm, qemu",
    (
        (linux_vmms.Qemu, ("7.2.18", "virtio-balloon-pci")),
        (linux_vmms.QemuProxy, ("7.2.18", "virtio-balloon-pci")),
        (linux_vmms.Qemu, NOT_TO_BE_CREATED),
    ),
)
def test_no_qemu_and_no_mirror(qemu_of, no_debian, vmm, qemu, tmp_path):
    qemu_of(*qemu)
    begin = time.monotonic()
    with pytest.raises(
        linux_packages.Missing, match=f"apt-get finds no packages of {vmm.debian}: .*"
    ) as missing:
        vmm(str(tmp_path))
    assert time.monotonic() - begin < PATIENCE and str(missing.value).count("\n") == 0


def test_a_mirror_that_says_nothing(no_debian, monkeypatch):
    monkeypatch.setenv("no_proxy", "127.0.0.1")
    with socket.create_server(("127.0.0.1", 0)) as silent:
        monkeypatch.setattr(
            linux_packages, "MIRROR", f"http://127.0.0.1:{silent.getsockname()[1]}/debian"
        )
        begin = time.monotonic()
        with pytest.raises(linux_packages.Missing, match="apt-get finds no packages of sid: .*"):
            linux_packages.fetch_kernel("sid")
        assert time.monotonic() - begin < PATIENCE


@pytest.mark.parametrize("words", (("boot-linux",), ("test", "linux")))
def test_a_tool_says_so_in_one_line(qemu_of, words):
    qemu_of("11.1.3", PROXY)
    command = [
        os.path.join(linux_packages.ROOT, "tools", words[0]),
        *words[1:],
        "--vmm",
        "qemu-proxy",
        "--reference",
    ]
    ran = subprocess.run(command, capture_output=True, text=True, timeout=PATIENCE)
    assert (ran.returncode, ran.stdout, ran.stderr.count("\n")) == (2, "", 1), ran.stderr
    assert OLD_QEMU in ran.stderr


# Flags of processors, as /proc/cpuinfo has them.
OF_INTEL, OF_AMD, OF_NONE = "fpu vmx sse", "fpu svm sse", "fpu hypervisor sse"


@pytest.mark.parametrize(
    "answer, flags, word",
    (
        (linux_vmms.KVM_API_VERSION, OF_INTEL, "kvm"),
        (linux_vmms.KVM_API_VERSION, OF_AMD, "kvm"),
        # Such a KVM ends a kernel that isn't made for it: "emulation failure".
        (linux_vmms.KVM_API_VERSION, OF_NONE, "tcg"),
        (linux_vmms.KVM_API_VERSION, "", "tcg"),
        (11, OF_INTEL, "tcg"),
        (OSError, OF_INTEL, "tcg"),
    ),
)
def test_kvm_where_it_answers_and_takes_any_kernel(monkeypatch, tmp_path, answer, flags, word):
    def ioctl(_, request):
        assert request == 0xAE00
        if answer is OSError:
            raise OSError
        return answer

    processor = tmp_path / "cpuinfo"
    processor.write_text(
        f"processor\t: 0\nflags\t\t: {flags}\n" if flags else "processor\t: 0\n", encoding="utf-8"
    )
    real, others = open, {"/dev/kvm": "/dev/null", "/proc/cpuinfo": processor}
    monkeypatch.setattr(
        "builtins.open", lambda name, *words, **how: real(others.get(name, name), *words, **how)
    )
    monkeypatch.setattr(linux_vmms.fcntl, "ioctl", ioctl)
    assert linux_vmms.accelerator() == word


def test_no_kvm(monkeypatch):
    def refuse(*_, **__):
        raise FileNotFoundError

    monkeypatch.setattr("builtins.open", refuse)
    assert linux_vmms.accelerator() == "tcg"


@pytest.mark.parametrize("suite", ("", "../x", "a b", "sid main"))
def test_suites_that_are_none(suite):
    with pytest.raises(linux_packages.Missing, match="is no name of a Debian"):
        linux_packages.fetch_uml(suite)


def test_the_machine_s_own_suite():
    assert linux_packages.apt_of(None) is None


@pytest.mark.parametrize(
    "suite, mirror",
    (
        ("sid", "http://deb.debian.org/debian sid main"),
        ("stonking", "http://archive.ubuntu.com/ubuntu stonking main universe"),
    ),
)
def test_where_a_suite_is(monkeypatch, tmp_path, suite, mirror):
    """Ubuntu's keys come from Debian."""
    keys = {
        it: tmp_path / f"usr/share/keyrings/{it}-archive-keyring.gpg" for it in ("debian", "ubuntu")
    }
    keys["ubuntu"].parent.mkdir(parents=True)
    keys["ubuntu"].touch()
    monkeypatch.setattr(linux_packages, "keyring", lambda: keys["debian"])
    monkeypatch.setattr(linux_packages, "fetch", lambda _, packages, its: str(tmp_path))
    its = keys["debian" if suite == "sid" else "ubuntu"]
    assert linux_packages.source_of(suite) == f"[signed-by={its}] {mirror}"


@pytest.fixture
def migrating(monkeypatch, tmp_path):
    """Returns what makes guests that migrate, on a machine whose QEMU has this accelerator;
    nothing is fetched."""

    def make(has, *asked):
        monkeypatch.setattr(linux_migrated, "accelerator", lambda: has)
        return linux_migrated.Migrating(str(tmp_path), *asked)

    monkeypatch.setattr(linux_migrated.Qemu, "__init__", lambda *_: None)
    monkeypatch.setattr(linux_migrated, "fetched_qemu", lambda it: ["ld-linux.so", f"qemu-{it}"])
    monkeypatch.setattr(linux_migrated, "module", lambda it: f"module-{it}")
    return make


def test_a_guest_that_migrates_is_emulated_unless_kvm_is_asked_for(migrating):
    for has, *asked in (("kvm",), ("tcg",), ("kvm", None, "tcg"), ("tcg", "sid", "tcg")):
        assert migrating(has, *asked).accelerator() == "tcg"
    assert migrating("kvm", None, "kvm").accelerator() == "kvm"
    with pytest.raises(linux_packages.Missing, match="takes only kernels that are made for it"):
        migrating("tcg", None, "kvm")


@pytest.mark.parametrize(
    "asked, debian", ((None, "trixie"), ("sid", "sid"), ("stonking", "stonking"))
)
def test_a_guest_that_migrates_between_qemus_of_a_debian(migrating, asked, debian):
    command, device = migrating("tcg", asked).find()
    assert command == ["ld-linux.so", "--preload", f"module-{debian}", f"qemu-{debian}"]
    assert device == "vhost-user-balloon-pci"
