"""What one client did to all others while one process served them: each is tried beside a guest at
work, whose rounds go on meanwhile. The host delays none of them by more than 5 ms, however busy the
machine is (delays.py)."""

import array
import os
import select
import socket
import struct
import subprocess
import time

import pytest
from aside import Aside
from bigvasta.connection import Connection
from delays import MOST_DELAY, delay_beside
from tenants import eventually, process_of
from vhost_client import (
    ADD_MEM_REG,
    BUFFERS,
    GET_FEATURES,
    INFLATE,
    OFFERED,
    PAGE,
    REGIONS,
    REM_MEM_REG,
    SET_MEM_TABLE,
    SET_VRING_KICK,
    Client,
)
from waiting import PATIENCE

# What a process sends to the lender (message.h): the number of a report, and where a message has
# its kind and the guest's pages.
TELL_REPORT, KIND_AT, PAGES_AT = 9, 4, 48

# Where memory may end, at most.
MOST_SET = 1 << 36


def lingering():
    """Returns a TCP socket whose end waits for six seconds, as nobody reads what it has sent."""
    with socket.create_server(("127.0.0.1", 0)) as server:
        one = socket.create_connection(server.getsockname())
        other, _ = server.accept()
    other.setsockopt(socket.SOL_SOCKET, socket.SO_RCVBUF, 2048)
    one.setsockopt(socket.SOL_SOCKET, socket.SO_LINGER, struct.pack("ii", 1, 6))
    one.setblocking(False)
    try:
        while True:
            one.send(bytes(1 << 16))
    except BlockingIOError:
        return one, other


def test_a_socket_that_lingers_beside_a_message(beside):
    lender, rounds = beside
    lender.demand("add bad")

    def act(_):
        client = Client(f"{lender.folder}/bad", lambda: "")
        one, other = lingering()
        head = struct.pack("<III", GET_FEATURES, 1, 0)
        client.socket.sendmsg(
            [head[:4]], [(socket.SOL_SOCKET, socket.SCM_RIGHTS, array.array("i", [one.fileno()]))]
        )
        one.close()
        client.socket.send(head[4:])  # who has read it all is the last one that has the file
        client.leave()
        time.sleep(2)
        other.close()

    assert rounds(act) < MOST_DELAY
    assert lender.demand("budget 63") == "ok"


def test_sockets_that_linger_on_a_connection_that_nobody_takes(beside):
    # They go with the listening socket as the seat is taken away.
    lender, rounds = beside
    lender.demand("add bad")
    first = Client(f"{lender.folder}/bad", lambda: "")
    lender.become("bad", here=1)
    second = socket.socket(socket.AF_UNIX, socket.SOCK_STREAM)
    second.connect(f"{lender.folder}/bad")
    one, other = lingering()
    second.sendmsg(
        [b"x"], [(socket.SOL_SOCKET, socket.SCM_RIGHTS, array.array("i", [one.fileno()]))]
    )
    one.close(), second.close()

    def act(_):
        begin = time.monotonic()
        lender.demand("remove bad")
        taken.append(time.monotonic() - begin)

    taken = []
    assert rounds(act) < MOST_DELAY
    assert taken[0] < 2, f"a seat that is taken away stops the lender for {taken[0]} s"
    first.leave(), other.close()


def test_a_pipe_for_a_kick(beside):
    lender, rounds = beside
    client = Client(lender.add("bad"), lambda: "")
    client.negotiate(protocol=OFFERED)

    def act(_):
        reads, writes = os.pipe()
        try:
            client.send(SET_VRING_KICK, struct.pack("<Q", 0), [reads], flags=1)
            assert client.receive() is None
        except ConnectionError:
            pass
        os.close(reads), os.close(writes)

    assert rounds(act) < MOST_DELAY
    lender.become("bad", here=0)
    client.leave()


def table(size, guest=0, user=1 << 40):
    """Returns a memory table of one region."""
    return struct.pack("<II", 1, 0) + struct.pack("<QQQQ", guest, size, user, 0)


def test_a_large_guest_that_goes(lend):
    size = 1 << 30
    lender = lend(4096, "--floor", "0")
    worker = Client(lender.add("worker"), lambda: "")
    worker.start()
    file = os.memfd_create("large")
    os.ftruncate(file, size), os.posix_fallocate(file, 0, size)
    client = Client(lender.add("large"), lambda: "")
    client.negotiate()
    client.accepted(SET_MEM_TABLE, table(size), [file])
    os.close(file)  # its pages go with the process

    def act(_):
        time.sleep(0.3)
        client.leave()

    assert delay_beside(act, worker, process_of(lender, "worker")) < MOST_DELAY
    lender.become("large", here=0, held_kib=0)
    worker.leave()


def test_memory_that_comes_and_goes_in_a_loop(beside):
    lender, rounds = beside
    client = Client(lender.add("bad"), lambda: "")
    client.negotiate(protocol=OFFERED)

    def act(ended):
        while not ended.is_set():
            for request in (ADD_MEM_REG, REM_MEM_REG):
                client.accepted(
                    request,
                    client.region_body(0),
                    client.files[:1] if request == ADD_MEM_REG else (),
                )

    before = lender.counters()["decisions"]
    begin = time.monotonic()
    assert rounds(act) < MOST_DELAY
    decisions = lender.counters()["decisions"] - before
    assert decisions <= 110 * (time.monotonic() - begin), f"{decisions} decisions"
    client.leave()


def test_a_queue_of_the_longest_requests(beside):
    lender, rounds = beside
    client = Client(lender.add("bad"), lambda: "")
    client.start(size=64)
    for head in range(64):
        client.describe(INFLATE, head, BUFFERS, 4 * 256)
    client.write(
        BUFFERS, struct.pack("<256I", *[REGIONS[1][0] // PAGE + it % 64 for it in range(256)])
    )

    available, used = (client.table(INFLATE) + it * PAGE for it in (1, 2))
    client.write(available + 4, struct.pack("<64H", *range(64)))

    def act(ended):
        index = 0
        while not ended.is_set():
            index = (index + 64) & 0xFFFF
            client.write(available + 2, struct.pack("<H", index))
            client.kick(INFLATE)
            while (
                client.read(used + 2, 2) != struct.pack("<H", index)
                or select.select([client.own], [], [], 0)[0]
            ):
                client.told(PATIENCE)

    assert rounds(act) < MOST_DELAY
    client.leave()


def test_a_table_with_one_page_at_the_end_of_what_may_be(beside):
    lender, rounds = beside
    client = Client(lender.add("bad"), lambda: "")
    client.negotiate(protocol=OFFERED)

    def act(ended):
        while not ended.is_set():
            client.accepted(SET_MEM_TABLE, table(PAGE, MOST_SET - PAGE), client.files[:1])

    assert rounds(act) < MOST_DELAY
    client.leave()


def test_a_client_that_comes_again_and_again(beside):
    lender, rounds = beside
    path = lender.add("bad")
    size = os.path.getsize(lender.log)

    def act(ended):
        while not ended.is_set():
            client = socket.socket(socket.AF_UNIX, socket.SOCK_STREAM)
            client.settimeout(PATIENCE)
            try:
                client.connect(path)
                client.send(struct.pack("<III", 99, 1, 0))
                client.recv(1)
            except OSError:
                pass
            client.close()

    assert rounds(act) < MOST_DELAY
    # 21 lines in a second at most.
    assert os.path.getsize(lender.log) - size < 4 * 21 * 60


@pytest.fixture
def unread(plain, tmp_path):
    """A lender whose standard output and standard error nobody reads."""
    reads, writes = os.pipe()
    words = [plain, str(tmp_path), "--budget", "64", "--lines", "100000"]
    host = subprocess.Popen(words, stdin=subprocess.PIPE, stdout=writes, stderr=writes)
    os.close(writes)
    eventually(lambda: select.select([reads], [], [], 0)[0])
    yield host, str(tmp_path), reads
    host.terminate()
    assert host.wait(PATIENCE) == 0
    host.stdin.close(), os.close(reads)


def test_words_and_answers_that_nobody_reads(unread):
    host, folder, reads = unread
    lines = b"".join(b"add g%d\n" % it for it in range(60)) + b"guests\n" * 50
    host.stdin.write(lines), host.stdin.flush()
    time.sleep(1)
    # The pipe is full of answers now, and each client that comes has words said of it.
    for number in range(0, 30):
        client = Client(f"{folder}/g{number}", lambda: "")
        client.send(99, flags=1)
        assert client.receive() is None
        client.leave()
    worker = Client(f"{folder}/g50", lambda: "")
    worker.start()
    with Connection(f"{folder}/.control") as control:
        process = next(
            it["process"] for it in control.ask("status")["guests"] if it["name"] == "g50"
        )
    assert delay_beside(lambda _: None, worker, process, 1) < MOST_DELAY
    worker.leave()
    # All answers come as they are read, whole and in order.
    got = b""
    while got.count(b"\n") < 61 + 50 * 61:
        assert select.select([reads], [], [], PATIENCE)[0], got[-200:]
        got += os.read(reads, 1 << 16)
    found = [
        it for it in got.split(b"\n") if it.startswith((b"ready", b"listening", b"guests ", b"g"))
    ]
    assert [it.split()[0] for it in found if not it.startswith(b"gone")][:62] == [b"ready"] + [
        b"listening"
    ] * 60 + [b"guests"]


def flood(path, seconds, begins):
    """Is a guest's process that somebody has taken over: each of its reports says that the memory
    has changed. Returns how many it sent until there was no room, how many in all, and the seconds
    that it took."""
    with socket.socket(socket.AF_UNIX, socket.SOCK_SEQPACKET) as listener:
        listener.bind(path), listener.listen()
        begins()
        channel, _ = listener.accept()
    order = channel.recv(1 << 16)
    report, room, sent, begin = (
        bytearray(order[:KIND_AT]) + bytes(len(order) - KIND_AT),
        0,
        0,
        time.monotonic(),
    )
    report[KIND_AT] = TELL_REPORT
    channel.setblocking(False)
    while time.monotonic() < begin + seconds:
        struct.pack_into("<I", report, PAGES_AT, MOST_SET // PAGE - sent)
        try:
            channel.send(report)
            sent += 1
        except BlockingIOError:
            room = room or sent
            time.sleep(0.001)
    return room, sent, time.monotonic() - begin


def test_a_process_that_sends_more_than_it_may(lend):
    # The lender reads 40 messages of it in 50 ms.
    lender = lend(64, "--floor", "0")
    process = Aside(lambda begins: flood(f"{lender.folder}/.channels/bad", 2, begins))
    lender.demand("add bad")
    room, sent, seconds = process.numbers()
    assert room < sent <= room + 40 * (seconds / 0.05 + 2)
    assert lender.counters()["decisions"] <= 110 * (seconds + 1)
    lender.become("bad", here=0)
