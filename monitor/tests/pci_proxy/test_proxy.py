"""What a machine in the place of QEMU gets of a backend on PCI, what ends its service, and that
random bytes leave it without a fault."""

import os
import random
import resource
import signal
import socket
import struct
import subprocess
import time

import pytest
import linux_kit
from pci_client import (
    ACCEPTED,
    ACCEPT_SELECT,
    BAR_READ,
    BUFFERS,
    CONFIGURATION_WRITE,
    DEVICE,
    DEVICE_RESET,
    ISR,
    NOTIFY,
    OFFERED,
    PAGE,
    PAGES,
    QUEUES,
    QUEUE_SIZE,
    SET_INTERRUPT,
    STATUS,
    SYNC_MEMORY,
)
from program_words import demand_options_taken
from vhost_client import NO_NUMBERS
from waiting import PATIENCE, patience_from_now


def test_configuration_space(client):
    assert (client.configuration(0), client.configuration(0x2C)) == (0x10451AF4, 0x11401AF4)
    # The command, not the status beside it; the cache line's size and the timer, not the kind of
    # header; the base; the line, not the pin.
    for at, left in (
        (4, 0x10FFFF),
        (0x0C, 0xFFFF),
        (0x10, 0xFFFFC000),
        (0x3C, 0x1FF),
        (0x34, 0x40),
        (0x2C, 0x11401AF4),
    ):
        client.ask(CONFIGURATION_WRITE, struct.pack("<III", at, 0xFFFFFFFF, 4))
        assert client.configuration(at) == left, hex(at)
    client.ask(CONFIGURATION_WRITE, struct.pack("<III", 0x0D, 0, 4))
    client.ask(CONFIGURATION_WRITE, struct.pack("<III", 0x0E, 0xC0FFFFFF, 4))
    assert (client.configuration(0x0C), client.configuration(0x10)) == (0xFF, 0xFFFFC000)
    client.ask(CONFIGURATION_WRITE, struct.pack("<III", 0, 0, 4))
    assert (client.configuration(0), client.configuration(254), client.configuration(1 << 31)) == (
        0x10451AF4,
        0,
        0,
    )


def test_which_bytes_of_it_a_driver_may_write(client):
    """Those of the command, of the cache line's size, the timer, the base and the line; at most
    four at once, as may be read."""
    write = lambda at, value, length: client.ask(
        CONFIGURATION_WRITE, struct.pack("<III", at, value, length)
    )
    before = [client.configuration(at, 1) for at in range(256)]
    for at, byte in enumerate(before):
        write(at, byte ^ 0xFF, 1)
    now = [client.configuration(at, 1) for at in range(256)]
    changed = [at for at in range(256) if now[at] != before[at]]
    assert changed == [4, 5, 0x0C, 0x0D, 0x11, 0x12, 0x13, 0x3C]
    write(4, 0, 5)
    assert client.configuration(4, 1) == now[4] and client.configuration(0, 5) == 0


def test_start(client):
    client.start()
    assert [client.read(it) for it in (OFFERED, QUEUES, STATUS)] == [0x27, 5, 15]
    assert client.backend.counters()["end"] == PAGES


def test_a_bit_that_goes_is_refused(serve):
    client = serve()
    client.start()
    client.write(STATUS, 3)
    assert client.read(STATUS) == 15
    assert client.close() == (0, "the driver's status 3 is refused: it clears a bit")


def test_refused_statuses_are_said_not_for_ever(serve):
    client = serve("--lines", "1000")
    client.start()
    for _ in range(150):
        client.write(STATUS, 3)
    with open(client.backend.log, encoding="latin-1") as log:
        assert list(log) == ["the driver's status 3 is refused: it clears a bit\n"] * 100
    assert client.close()[0] == 0


def test_what_is_left_as_the_driver_gets_ready_is_served(client):
    size = 256
    client.negotiate()
    client.place(1, size)
    os.pwrite(
        client.memory,
        b"".join(struct.pack("<QIHH", BUFFERS, 4, 0, 0) for _ in range(size)),
        3 * PAGE,
    )
    os.pwrite(client.memory, struct.pack("<I", 20), BUFFERS)
    os.pwrite(client.memory, struct.pack(f"<HH{size}H", 1, size, *range(size)), 4 * PAGE)
    client.write(STATUS, 15)
    end = patience_from_now()
    while os.pread(client.memory, 2, 5 * PAGE + 2) != struct.pack("<H", size):
        assert time.monotonic() < end, "the first look left chains, and no other one came"


def test_half_a_message_is_not_waited_for(client):
    client.start()
    message = struct.pack("<iiQ", BAR_READ, 0, 21) + struct.pack("<QQIB", OFFERED, 0, 4, 1)
    for cut in (0, 1, 15, 16, 17, len(message) - 1):
        client.socket.sendall(message[:cut])
        assert (client.backend.ask("target 5"), client.backend.counters()["target"]) == ("ok", 5)
        client.socket.sendall(message[cut:])
        assert client.answer() == 0x27


def test_inflate(client):
    client.start()
    client.post(0, [40, 41, 50])
    assert client.backend.counters()["inflated"] == 3
    holes = [
        it for it in range(PAGES) if os.lseek(client.memory, it * PAGE, os.SEEK_HOLE) == it * PAGE
    ]
    assert holes == [40, 41, 50]
    assert os.pread(client.memory, 12, 2 * PAGE) == struct.pack("<HHII", 0, 1, 0, 0)
    assert os.eventfd_read(client.interrupt) == 1
    assert (client.read(ISR, 1) & 1, client.read(DEVICE)) == (1, 0)


def test_target_and_reset(client):
    client.start()
    client.backend.ask("target 7")
    assert client.read(DEVICE) == 7
    client.write(DEVICE + 4, 7)
    assert client.backend.counters()["actual"] == 7
    assert client.ask(DEVICE_RESET) == 0
    assert (client.read(STATUS), client.backend.counters()["actual"]) == (0, 0)
    client.start()
    assert client.read(STATUS) == 15


def demand_refused(client, words):
    """Demands that the backend ends with these words."""
    try:
        while client.socket.recv(24):
            pass
    except ConnectionResetError:
        pass
    status, said = client.close()
    assert status == 1
    assert said.startswith("refused: ") and words in said, said


@pytest.mark.parametrize(
    "words, pages, by", (("(rule 9)", [PAGES], 1), ("(rule 7)", [40], QUEUE_SIZE + 1))
)
def test_rules(serve, words, pages, by):
    client = serve()
    client.start()
    client.post(0, pages, by)
    demand_refused(client, words)


@pytest.mark.parametrize(
    "words, command, body",
    (
        ("message 8 is unknown", 8, b""),
        ("no message", BAR_READ, bytes(300)),
        ("an interrupt without a file", SET_INTERRUPT, b""),
    ),
)
def test_messages(serve, words, command, body):
    client = serve()
    client.send(command, body)
    demand_refused(client, words)


@pytest.mark.parametrize(
    "make",
    (lambda: socket.socket(socket.AF_INET).detach(), lambda: os.open("/dev/null", os.O_RDWR)),
)
def test_an_interrupt_that_is_no_event(serve, make):
    client, file = serve(), make()
    client.send(SET_INTERRUPT, files=[file])
    demand_refused(client, "the file of an interrupt is no eventfd, pipe or socket of a stream")
    os.close(file)


def test_more_files_than_there_is_room_for(serve):
    client = serve()
    client.send(SYNC_MEMORY, struct.pack("<24Q", *range(24)), 9 * [client.memory])
    demand_refused(client, "there is no room for its files")


def test_answers_that_nobody_reads(serve):
    client = serve()
    client.start()
    client.socket.setblocking(False)
    end = patience_from_now()
    while client.backend.process.poll() is None:
        assert time.monotonic() < end, "the backend waits for somebody to read"
        try:
            client.send(BAR_READ, struct.pack("<QQIB", OFFERED, 0, 4, 1))
        except BlockingIOError:
            time.sleep(0.01)
        except (BrokenPipeError, ConnectionResetError):
            break
    assert client.backend.process.wait(PATIENCE) == 0
    assert client.close() == (0, "")


def test_place(serve):
    client = serve()
    for status in (0, 1, 3, 11):
        client.write(STATUS, status)
    client.write(ACCEPT_SELECT, 1), client.write(ACCEPTED, 1)
    client.write(STATUS, 11)
    with pytest.raises(ConnectionError):
        client.place(0, 7)
    demand_refused(client, "queue 0 has no place: VB_MISPLACED")


def test_help_and_version(program):
    for word, said in (("--help", "pci_proxy_balloon FD ["), ("--version", "pci_proxy_balloon ")):
        ran = subprocess.run(
            [program, word],
            stdin=subprocess.DEVNULL,
            capture_output=True,
            text=True,
            timeout=PATIENCE,
        )
        assert (ran.returncode, ran.stderr, ran.stdout[: len(said)]) == (0, "", said)


def test_each_option_that_the_help_names_is_taken(program):
    demand_options_taken(program)


def test_few_files_are_allowed(serve):
    """It allows itself as many as it may have open, and no more."""
    few, most = 64, resource.getrlimit(resource.RLIMIT_NOFILE)
    resource.setrlimit(resource.RLIMIT_NOFILE, (few, most[1]))
    try:
        client = serve()
    finally:
        resource.setrlimit(resource.RLIMIT_NOFILE, most)
    allowed, _ = resource.prlimit(client.backend.process.pid, resource.RLIMIT_NOFILE)
    assert few < allowed < 4 * few


def test_a_signal_ends_it(serve):
    client = serve()
    client.backend.process.send_signal(signal.SIGTERM)
    assert client.backend.process.wait(PATIENCE) == 0
    assert client.close() == (0, "")


@pytest.mark.parametrize(
    "words",
    ([], *([it] for it in NO_NUMBERS), ["4294967296"], ["0", "1"], ["0", "--features", "8"]),
)
def test_command_lines(program, words):
    ran = subprocess.run(
        [program, *words], stdin=subprocess.DEVNULL, capture_output=True, timeout=PATIENCE
    )
    assert (ran.returncode, ran.stdout) == (2, b"")


def step(chance, client):
    """Does something random."""
    if chance.random() < 0.3:
        os.pwrite(
            client.memory, chance.randbytes(16), chance.randrange(12) * PAGE + chance.randrange(64)
        )
        client.post(
            chance.randrange(4), [chance.randrange(PAGES + 2) for _ in range(chance.randint(1, 9))]
        )
    at = chance.choice(
        (
            chance.randrange(56),
            NOTIFY + 4 * chance.randrange(8),
            DEVICE + chance.randrange(12),
            chance.getrandbits(40),
        )
    )
    value = chance.choice((0, 1, 3, 8, 11, 15, 255, chance.getrandbits(64)))
    if at == STATUS and chance.random() < 0.8:
        return
    length = chance.choice((1, 2, 4, 8, chance.getrandbits(32)))
    client.read(at, length) if chance.random() < 0.4 else client.write(at, value, length)
    client.configuration(chance.choice((chance.randrange(300), chance.getrandbits(32))), length)
    client.ask(
        CONFIGURATION_WRITE, struct.pack("<III", chance.randrange(300), value & 0xFFFFFFFF, length)
    )


@pytest.mark.parametrize("seed", range(150))
def test_random_lives(serve, seed):
    """The backend serves or refuses, and has no fault of its own."""
    chance, client = random.Random(seed), serve()
    try:
        client.start()
        for _ in range(60):
            step(chance, client)
    except (OSError, linux_kit.Fault):
        pass
    status, said = client.close()
    assert status in (0, 1), said
    assert (status == 1) == said.startswith("refused: "), said
