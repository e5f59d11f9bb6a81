"""Tests of what ends a backend's service: a line says why, and the socket is closed."""

import os
import struct
import subprocess
import tempfile

import linux_guest
import pytest
from vhost_client import (
    ADD_MEM_REG,
    BUFFERS,
    FEATURES,
    GET_FEATURES,
    HAS_PROTOCOL,
    INDIRECT,
    INFLATE,
    NO_FILE,
    NEXT,
    PAGE,
    PAGES_OF_REGION,
    QEMU_PROTOCOL,
    REGIONS,
    REM_MEM_REG,
    SET_BACKEND_REQ_FD,
    SET_FEATURES,
    SET_STATUS,
    SET_VRING_ERR,
    SET_VRING_KICK,
    SIZE,
    STATISTICS,
    VRING_KICK,
    WRITE,
)
from vhost_demands import demand_refused
from waiting import PATIENCE

PAGE_OF_SECOND = REGIONS[1][0] // PAGE
FAR = REGIONS[1][0] + PAGES_OF_REGION * PAGE

# Rules of a chain: the number, what is said of it, the head, and the descriptors (number, address,
# length, flags, next).
RULES = (
    (1, "the head is no descriptor of the queue", SIZE, []),
    (2, "a next field names no descriptor of the queue", 0, [(0, BUFFERS, 4, NEXT, SIZE)]),
    (
        3,
        "the chain is longer than the queue",
        0,
        [(0, BUFFERS, 4, NEXT, 1), (1, BUFFERS, 4, NEXT, 0)],
    ),
    (4, "an indirect descriptor", 0, [(0, BUFFERS, 16, INDIRECT, 0)]),
    (5, "a piece has the wrong direction", 0, [(0, BUFFERS, 4, WRITE, 0)]),
    (6, "a buffer is out of guest memory", 0, [(0, FAR, 4, 0, 0)]),
    (8, "a length that the queue doesn't take", 0, [(0, BUFFERS, 5, 0, 0)]),
    (9, "no such page", 0, [(0, BUFFERS, 4, 0, 0)]),
)


@pytest.mark.parametrize("rule, words, head, descriptors", RULES)
def test_rules(serve_ready, rule, words, head, descriptors):
    client = serve_ready("--strict")
    client.write(BUFFERS, struct.pack("<I", PAGE_OF_SECOND + PAGES_OF_REGION))
    for it in descriptors:
        client.describe(INFLATE, *it)
    client.publish(INFLATE, head)
    # The kick is answered well: what it leads to comes after that.
    assert client.kick(INFLATE) == bytes(8)
    demand_refused(client, f"the guest's bytes break a rule: {words} (rule {rule})")


def test_what_was_served_before_a_fault_is_told(serve_ready):
    client = serve_ready()
    client.write(BUFFERS, struct.pack("<I", REGIONS[1][0] // PAGE))
    client.describe(INFLATE, 0, BUFFERS, 4)
    client.publish(INFLATE, 0), client.publish(INFLATE, SIZE)
    client.kick(INFLATE)
    assert (client.told(), client.used(INFLATE)) == (INFLATE, (1, [(0, 0)]))
    demand_refused(client, "(rule 1)")


def test_index_that_jumps(serve_ready):
    client = serve_ready()
    client.publish(INFLATE, 0, SIZE + 1)
    client.kick(INFLATE)
    demand_refused(client, "the available index has jumped (rule 7)")


def test_buffer_in_the_hole(serve_ready):
    client = serve_ready()
    client.describe(INFLATE, 0, REGIONS[0][0] + PAGES_OF_REGION * PAGE - 4, 8)
    client.publish(INFLATE, 0)
    client.kick(INFLATE)
    demand_refused(client, "(rule 6)")


def test_fault_before_the_driver_is_ready(serve):
    client = serve()
    client.negotiate()
    client.hand_over_memory()
    for number in range(4):
        client.place(number)
    client.publish(STATISTICS, SIZE)
    client.enable(STATISTICS)
    demand_refused(client, "(rule 1)")


def test_features(serve):
    client = serve()
    client.negotiate()
    why = {0x27: "VERSION_1 is missing", FEATURES | 8: "a feature that isn't offered"}
    for features in why:
        assert client.send(SET_FEATURES, struct.pack("<Q", features)) != bytes(8)
    client.start()
    assert client.counter("status") == 15
    assert client.close()[0] == 0
    said = [f"the features 0x{its:x} are refused: {words}" for its, words in why.items()]
    assert [it for it in client.lines if "features 0x" in it] == said


@pytest.mark.parametrize(
    "words, how",
    (
        ("VB_MISPLACED", {"size": 257}),
        ("VB_MISPLACED", {"size": 6}),
        ("VB_MISPLACED", {"shift": 8}),
        ("resumes at 9, and its used index is 0", {"base": 9}),
        ("resumes at 65535, and its used index is 0", {"base": 65535}),
        ("resumes at 65536", {"base": 65536}),
        ("isn't in the guest's memory", {"shift": 1 << 45}),
        ("VB_MISPLACED", {"shift": (PAGES_OF_REGION - 2) * PAGE - 64}),
    ),
)
def test_places(serve, words, how):
    client = serve()
    client.negotiate()
    client.hand_over_memory()
    client.place(INFLATE, **how)
    assert client.enable(INFLATE) != bytes(8)
    demand_refused(client, words)


def test_more_regions_than_slots(serve):
    client = serve()
    client.negotiate(protocol=QEMU_PROTOCOL)
    region = lambda it: struct.pack(
        "<QQQQQ", 0, (1 + it) * PAGE, PAGE, REGIONS[0][1] + it * PAGE, it * PAGE
    )
    for it in (
        *range(16, 32),
        *range(15, -1, -1),
    ):  # each touches one that is there, from above or from below
        client.accepted(ADD_MEM_REG, region(it), [client.files[0]])
    assert client.counter("end") == 33
    client.send(ADD_MEM_REG, region(32), [client.files[0]], flags=1)
    demand_refused(client, "a region of the guest's memory can't be mapped")


def test_channels_that_are_no_sockets(serve_ready):
    ends = os.pipe()
    event = os.eventfd(0)
    for file in (*ends, event):
        client = serve_ready()
        client.send(SET_BACKEND_REQ_FD, b"", [file], flags=1)
        demand_refused(client, "the channel is no socket")
        os.close(file)


@pytest.mark.parametrize("flags", (0, 2, 3, 5))
def test_flags(serve_ready, flags):
    client = serve_ready()
    client.send(GET_FEATURES, flags=flags)
    demand_refused(client, f"GET_FEATURES has the flags 0x{flags:x}")


GUEST, USER, BYTES = *REGIONS[1], PAGES_OF_REGION * PAGE


@pytest.mark.parametrize(
    "words, gone, body",
    (
        ("no such region", True, (GUEST, BYTES, USER)),
        ("no such region", False, (GUEST + PAGE, BYTES, USER)),
        ("no such region", False, (GUEST, BYTES - PAGE, USER)),
        ("no such region", False, (GUEST, BYTES, USER + PAGE)),
        ("isn't in the guest's memory any longer", True, (REGIONS[0][0], BYTES, REGIONS[0][1])),
    ),
)
def test_regions_that_are_taken_away(serve, words, gone, body):
    client = serve()
    client.start_by_events()
    if gone:
        client.accepted(REM_MEM_REG, client.region_body(1))
    client.send(REM_MEM_REG, struct.pack("<QQQQQ", 0, *body, 0), flags=1)
    demand_refused(client, words)


def test_a_broken_rule_is_told_by_its_event(serve):
    client = serve()
    client.start_by_events()
    fault = os.eventfd(0, os.EFD_NONBLOCK)
    client.accepted(SET_VRING_ERR, struct.pack("<Q", INFLATE), [fault])
    client.accepted(SET_STATUS, bytes(8))  # which forgets other things
    client.accepted(SET_FEATURES, struct.pack("<Q", FEATURES | HAS_PROTOCOL))
    client.go_on()
    client.post_pages(INFLATE, [REGIONS[1][0] // PAGE])
    assert client.called(INFLATE) == 1
    client.publish(INFLATE, SIZE)
    client.kick(INFLATE)
    demand_refused(client, "(rule 1)")
    assert os.eventfd_read(fault) == 1
    os.close(fault)


def test_a_rule_that_is_broken_on_a_ring_without_a_kick(serve):
    client = serve()
    client.start_by_events()
    client.accepted(SET_VRING_KICK, struct.pack("<Q", INFLATE | NO_FILE))
    client.publish(INFLATE, SIZE)
    demand_refused(client, "(rule 1)")


def test_memory_that_is_cut_off(serve_ready):
    client = serve_ready()
    os.ftruncate(client.files[0], 0)
    client.send(VRING_KICK, struct.pack("<II", INFLATE, 0), flags=1)
    demand_refused(client, "its memory's file has been cut off")


def test_saved_states_that_are_none(program):
    with tempfile.TemporaryDirectory() as folder:
        path, words = os.path.join(folder, "state"), [
            f"{folder}/socket",
            "--state",
            os.path.join(folder, "state"),
        ]
        backend = linux_guest.Backend(program, folder, words)
        assert (backend.ask("target 5"), backend.counters()["target"], backend.close()) == (
            "ok",
            5,
            2,
        )
        backend.process.stdout.close()
        with open(path, "rb") as file:
            saved = file.read()
        length = (
            "VB_BAD_LENGTH: of a saved state: more or fewer bytes than it has "
            "(`vb_save`: less room)"
        )
        no_state = "VB_NOT_A_STATE: the bytes don't begin as a saved state does"
        # In the order in which vb_restore tests for them.
        for data, why in (
            (b"", length),
            (saved[:15], length),
            (bytes(187), no_state),
            (bytes(1000), no_state),
            (saved[:-1], length),
            (saved + b"\0", length),
            (
                saved[:-1] + bytes([saved[-1] ^ 1]),
                "VB_BAD_SUM: the bytes aren't those that were saved",
            ),
        ):
            with open(path, "wb") as file:
                file.write(data)
            ran = subprocess.run(
                [program, *words],
                stdin=subprocess.DEVNULL,
                capture_output=True,
                text=True,
                timeout=PATIENCE,
            )
            said = f"refused: {path} is no saved state: {why}\n"
            assert (ran.returncode, ran.stdout, ran.stderr) == (2, "", said)


@pytest.mark.parametrize(
    "words, make",
    (
        ("Too many levels of symbolic links", lambda path: os.symlink("state", path)),
        ("Too many levels of symbolic links", lambda path: os.symlink("/dev/null", path)),
        ("Invalid argument", os.mkfifo),
        ("Invalid argument", os.mkdir),
    ),
)
def test_states_that_cannot_be_read(program, tmp_path, words, make):
    path = str(tmp_path / "state")
    make(path)
    options = [program, f"{tmp_path}/socket", "--state", path]
    ran = subprocess.run(
        options, stdin=subprocess.DEVNULL, capture_output=True, text=True, timeout=PATIENCE
    )
    assert (ran.returncode, ran.stdout, ran.stderr) == (2, "", f"refused: {path}: {words}\n")


def test_bytes_that_are_no_message(serve_ready):
    client = serve_ready()
    client.socket.sendall(struct.pack("<III", GET_FEATURES, 1, 1 << 20))
    demand_refused(client, "no message")


def test_a_file_in_the_socket_s_place_stays(program):
    with tempfile.NamedTemporaryFile() as file:
        file.write(b"here"), file.flush()
        ran = subprocess.run(
            [program, file.name],
            stdin=subprocess.DEVNULL,
            capture_output=True,
            text=True,
            timeout=PATIENCE,
        )
        assert (ran.returncode, ran.stderr) == (
            2,
            f"vhost_user_balloon: {file.name}: Address already in use\n",
        )
        file.seek(0)
        assert file.read() == b"here"


@pytest.mark.parametrize("lines", ("", "quit\n"))
def test_nobody_comes(program, lines):
    """The end of the input is a fault then, and what an operator asks for isn't."""
    with tempfile.TemporaryDirectory() as folder:
        words = [program, f"{folder}/socket"]
        ran = subprocess.run(words, input=lines, capture_output=True, text=True, timeout=PATIENCE)
        said = (2, f"vhost_user_balloon: {words[1]}: Operation canceled\n")
        assert (ran.returncode, ran.stderr) == ((0, "") if lines else said)
        assert os.listdir(folder) == []


@pytest.mark.parametrize(
    "words",
    (
        [],
        ["--features"],
        ["a", "b"],
        ["a", "--features", "x"],
        ["--wrong", "a"],
        ["x" * 200],
        *(
            ["a", "--features", it]
            for it in ("8", "", " 100000027", "+100000027", "100000027 ", "10000000000000000")
        ),
    ),
)
def test_command_lines(program, words):
    ran = subprocess.run(
        [program, *words], stdin=subprocess.DEVNULL, capture_output=True, timeout=PATIENCE
    )
    assert (ran.returncode, ran.stdout) == (2, b""), words
