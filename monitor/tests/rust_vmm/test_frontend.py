"""The backend of one guest, by the frontend of rust-vmm's crate `vhost`, which a Rust VMM has; and
the example that is a daemon on its crate `vhost-user-backend` (monitor/examples/vhost_user_daemon).
The program frontend/ prints what each call came to; what it has to be is by vhost-user's document,
by VIRTIO 1.1, and by what each backend offers (docs/LINUX.md, the crate's own sources)."""

import os
import subprocess
import time
from typing import NamedTuple

import linux_kit
import pytest
from linux_guest import Backend
from linux_packages import rust_vmm_crates
from waiting import PATIENCE

HERE = os.path.dirname(__file__)

# MUST_TELL_HOST, STATS_VQ, DEFLATE_ON_OOM and reports (VIRTIO 1.1, 5.5.3), VERSION_1, and bit 30
# for protocol features.
FEATURES = 1 << 32 | 1 << 30 | 0x27

# The queues of inflates, deflates, statistics, hints and reports.
QUEUES, TARGET = 5, 300
QUEUE = (
    "set_vring_num",
    "set_vring_addr",
    "set_vring_base",
    "set_vring_call",
    "set_vring_err",
    "set_vring_kick",
    "set_vring_enable",
)


class Offer(NamedTuple):
    """What a backend offers: features, protocol features by their bits, and memory slots; and its
    target at first."""

    features: int
    protocol: tuple
    slots: int
    target: int


# MQ, REPLY_ACK, CONFIG, RESET_DEVICE and CONFIGURE_MEM_SLOTS; those of `vhost_user_balloon` besides
# are LOG_SHMFD, BACKEND_REQ, INBAND_NOTIFICATIONS, STATUS and DEVICE_STATE, and bit 26 of the
# features, the log of writes. The crate has 509 slots.
SAME = (0, 3, 9, 13, 15)
OF_BALLOON = Offer(FEATURES | 1 << 26, (*SAME, 1, 5, 14, 16, 19), 32, 0)
OF_EXAMPLE = Offer(FEATURES, SAME, 509, TARGET)


def config(target, actual):
    """Returns what the configuration space is, as it is printed: `num_pages` and `actual` (VIRTIO
    1.1, 5.5.4)."""
    return f"get_config {[*target.to_bytes(4, 'little'), *actual.to_bytes(4, 'little')]}"


def lines_of(offer):
    """Returns what the program has to print of a backend."""
    channel = (
        ("set_backend_request_fd ()",) if 5 in offer.protocol else ("set_backend_request_fd fails",)
    )
    change = ("waits", "handle_request 0", "changes 1") if 5 in offer.protocol else ()
    return [
        f"get_features {offer.features}",
        "set_owner ()",
        f"get_protocol_features {sum(1 << it for it in offer.protocol)}",
        "set_protocol_features ()",
        f"get_queue_num {QUEUES}",
        *channel,
        f"get_max_mem_slots {offer.slots}",
        "set_features ()",
        "set_mem_table ()",
        "add_mem_region ()",
        "remove_mem_region ()",
        *(f"{it} ()" for it in QUEUES * QUEUE),
        config(offer.target, 0),
        # The one chain is descriptor 0; the device writes nothing into it. Its four pages leave the
        # file.
        "used 1 (0, 0)",
        "pages given back 4",
        "set_config ()",
        *change,
        config(TARGET, 4),
        # The crate itself refuses what the backend doesn't offer.
        "get_inflight_fd fails",
        "set_inflight_fd fails",
        "set_vring_enable ()",
        "get_vring_base 1",
        "reset_device ()",
        config(TARGET, 0),
        "reset_owner ()",
    ]


def built(folder, source, name, environment=None):
    """Builds a program offline, and returns its path."""
    registry = (
        'source.crates-io.replace-with="debian"',
        f'source.debian.directory="{rust_vmm_crates()}"',
    )
    words = [
        "build",
        "--offline",
        "--quiet",
        "--target-dir",
        folder,
        *(word for it in registry for word in ("--config", it)),
    ]
    ran = subprocess.run(
        [linux_kit.need("cargo", "cargo"), *words],
        cwd=source,
        capture_output=True,
        text=True,
        env={**os.environ, **(environment or {})},
    )
    assert ran.returncode == 0, ran.stderr
    return f"{folder}/debug/{name}"


@pytest.fixture(scope="session")
def frontend(tmp_path_factory):
    """The program that is a front end."""
    return built(str(tmp_path_factory.mktemp("frontend")), f"{HERE}/frontend", "frontend")


@pytest.fixture(scope="session")
def example(tmp_path_factory):
    """The example that is a daemon on rust-vmm's crate."""
    folder = str(tmp_path_factory.mktemp("example"))
    source = os.path.join(linux_kit.MONITOR, "examples/vhost_user_daemon")
    return built(folder, source, "vhost_user_daemon", {"VB_LIB": linux_kit.core_of()})


@pytest.fixture
def backend(tmp_path):
    """A backend that waits for the program."""
    it = Backend(
        linux_kit.built("checked/vhost_user_balloon"),
        str(tmp_path),
        [str(tmp_path / "socket"), "--strict"],
    )
    yield it
    it.close()


def talk(frontend, socket, waits, *words):
    """Returns the lines that the program prints, of a failure that it failed; calls what it waits
    for."""
    with subprocess.Popen(
        [frontend, str(socket), *words], stdout=subprocess.PIPE, text=True
    ) as process:
        lines = []
        for line in process.stdout:
            lines.append(line.split(":")[0].strip())
            if lines[-1] == "waits":
                waits()
        assert process.wait(PATIENCE) == 0, lines
        return lines


@pytest.mark.timeout(900)
def test_each_call_is_answered(frontend, backend, tmp_path):
    lines = talk(frontend, tmp_path / "socket", lambda: backend.ask(f"target {TARGET}"))
    assert lines == lines_of(OF_BALLOON)
    assert (backend.close(), backend.why()) == (0, "")


@pytest.mark.parametrize(
    "name, why",
    (
        # The crate sends it without the size and the offset of a log in a file.
        ("log_base", "refused: SET_LOG_BASE has 8 bytes"),
        ("log_fd", "refused: message 7 is unknown"),
    ),
)
def test_a_call_that_is_none_of_the_backend_s(frontend, backend, tmp_path, name, why):
    lines = talk(frontend, tmp_path / "socket", None, name)
    assert lines[0] == "set_owner ()" and lines[-1] == "get_features fails"
    assert (backend.close(), backend.why()) == (1, why)


@pytest.mark.timeout(900)
def test_the_example_on_their_crate(frontend, example, tmp_path):
    socket = tmp_path / "socket"
    with subprocess.Popen([example, str(socket), str(TARGET)]) as daemon:
        try:
            while not socket.exists():
                assert daemon.poll() is None
                time.sleep(0.01)
            assert talk(frontend, socket, None) == lines_of(OF_EXAMPLE)
        finally:
            daemon.kill()
