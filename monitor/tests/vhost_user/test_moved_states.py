"""Tests of pipes and states of a device that are none: each is refused by name, and harms nobody
else."""

import contextlib
import fcntl
import os
import struct

import pytest
from vhost_client import (
    ADD_MEM_REG,
    CHECK_DEVICE_STATE,
    INFLATE,
    PAGE,
    PAGES_OF_REGION,
    REGIONS,
    STATE_BYTES,
)
from vhost_demands import FIRST, demand_refused, demand_served
from vhost_moves import (
    BADLY,
    HEAD,
    LOAD,
    PROTOCOL,
    SAVE,
    SUM,
    WELL,
    WRONG,
    ask,
    edited,
    load,
    moved_memory,
    saved,
    stopped,
    sum_of,
    with_pages,
)
from waiting import eventually


@pytest.mark.parametrize("last", range(4))
def test_while_a_queue_runs(ready, last):
    client = ready()
    for number in {*range(4)} - {last}:
        client.stop_ring(number)
    for direction in (SAVE, LOAD):
        assert ask(client, os.pipe()[direction == SAVE], direction) == BADLY
    assert "while queues run" in client.why()
    client.stop_ring(last)
    assert saved(client)


def test_queues_that_start_before_the_state_has_come(ready):
    """It isn't loaded over a device that is at work."""
    client = ready()
    with_pages(client, [FIRST], 1)
    bases = stopped(client)
    data = saved(client)
    theirs, ours = os.pipe()
    assert ask(client, theirs, LOAD) == WELL
    client.backend.ask("target 5")
    client.go_on(bases)
    os.write(ours, data)
    os.close(ours)
    assert client.send(CHECK_DEVICE_STATE) == WRONG
    assert "isn't loaded while queues run" in client.why()
    assert (client.counter("actual"), client.counter("target")) == (1, 5)
    assert client.called(INFLATE) == 1
    demand_served(client, INFLATE, [FIRST + 1])


def wrong_states(data):
    """Returns states that are none, and what is said of each."""
    whole = (
        (b"", "is none"),
        (data[:-1], "another length"),
        (data + b"\0", "another length"),
        (data[: HEAD + SUM - 1], "is none"),
        (b"X" + data[1:], "is none"),
    )
    words = (
        (8, 2, "another version"),
        (12, len(data) + 1, "another length"),
        (16, 2, "words that no device has"),
        (20, 0x10000, "words that no device has"),
        (24, 2**29, "another length"),
        (28, 1, "words that no device has"),
    )
    # The first page past the end of memory, 448, in a set of one more word.
    longer = edited(data[:-SUM] + struct.pack("<QQ", 1, 0), 12, struct.pack("<I", len(data) + 8))
    return (
        *whole,
        *((edited(data, at, struct.pack("<I", it)), said) for at, it, said in words),
        (edited(data, 32, b"X"), "no saved state"),
        (with_end(data, 447.5, 0), "isn't whole pages"),
        (edited(longer, 24, struct.pack("<I", 8)), "aren't memory"),
    )


def test_states_that_are_none(ready, serve):
    """Each is refused by name; nothing is lost, and a right one is taken after it."""
    client = ready()
    with_pages(client, [FIRST], 1)
    stopped(client)
    data = saved(client)
    other = serve()
    other.begin(PROTOCOL)
    other.backend.ask("target 3")
    for wrong, said in wrong_states(data):
        assert not load(other, wrong)
        assert said in other.why(), (said, other.why())
        assert other.counter("target") == 3
    assert load(other, data)
    assert other.counter("target") == 1


def test_what_is_saved_after_a_state_that_is_none(ready):
    """It has no byte of that."""
    client = ready()
    with_pages(client, [FIRST], 1)
    stopped(client)
    data = saved(client)
    assert not load(client, bytes(~it & 0xFF for it in data))
    assert saved(client) == data


# Where the state of a device has the end of its memory, and its own sum (docs/INTEGRATION.md), and
# how many pages a word of the set has.
END_AT, STATE_SUM_AT, WORD = HEAD - STATE_BYTES + 16, HEAD - SUM, 64


def with_end(data, pages, word):
    """Returns a device's bytes whose memory ends after these pages, with this last word of the set
    in place of its own."""
    data = data[:END_AT] + struct.pack("<Q", int(pages * PAGE)) + data[END_AT + 8 :]
    data = data[:STATE_SUM_AT] + sum_of(data[HEAD - STATE_BYTES : STATE_SUM_AT]) + data[HEAD:]
    return edited(data, len(data) - SUM - 8, struct.pack("<Q", word))


def test_states_at_their_bounds(ready, serve):
    """The most that each word may be, and a page at each place of the last word of the set: the
    last one of memory is the last one that may be in the balloon."""
    client = ready()
    with_pages(client, [FIRST], 1)
    stopped(client)
    data = saved(client)
    other = serve("--lines", "100000")
    other.begin(PROTOCOL)
    for at, most in ((16, 0), (16, 1), (20, 0), (20, 0xFFFF)):
        assert load(other, edited(data, at, struct.pack("<I", most))), (at, most)
    (words,) = struct.unpack_from("<I", data, 24)
    for pages in (1, 2, 63, 64):
        for at in range(WORD):
            of_memory = at < pages
            wrong = with_end(data, (words - 1) * WORD + pages, 1 << at)
            assert load(other, wrong) == of_memory, (pages, at)
            assert of_memory or "aren't memory" in other.why()


def test_a_state_with_pages_that_are_no_memory(ready, serve):
    """The page before the first one of a region, or after the last one, is refused by name as its
    queues start: which are memory isn't known before."""
    client = ready()
    with_pages(client, [FIRST], 1)
    bases = stopped(client)
    data = saved(client)
    for page in (REGIONS[0][0] // PAGE - 1, REGIONS[0][0] // PAGE + PAGES_OF_REGION):
        other = serve()
        other.begin(PROTOCOL)
        assert load(
            other, edited(data, HEAD + page // WORD * 8, struct.pack("<Q", 1 << page % WORD))
        )
        moved_memory(client, other)
        other.negotiate(protocol=PROTOCOL)
        other.add_memory()
        with contextlib.suppress(AssertionError, ConnectionError):
            other.go_on(bases)
        demand_refused(other, "has pages in the balloon that aren't memory")


# Words of the set of the largest memory that has one, 64 GiB (docs/LINUX.md, "Migration").
MOST_WORDS = (64 << 30) // PAGE // WORD


@pytest.mark.parametrize("more", (0, 1))
def test_the_longest_state(ready, serve, more):
    client = ready()
    stopped(client)
    words = MOST_WORDS + more
    whole = saved(client)[:HEAD] + bytes(words * 8 + SUM)
    whole = edited(whole, 12, struct.pack("<I", len(whole)))
    whole = edited(whole, 24, struct.pack("<I", words))
    other = serve()
    other.begin(PROTOCOL)
    assert load(other, with_end(whole, words * WORD, 1 << WORD - 1)) == (not more)


# A region far up in the guest, for whose memory a set is as long as no pipe has room for.
FAR = 8 << 30


def test_a_state_that_goes_through_its_pipe_in_parts(ready, serve):
    client = ready()
    region = struct.pack("<QQQQQ", 0, FAR, PAGES_OF_REGION * PAGE, FAR, 0)
    client.accepted(ADD_MEM_REG, region, [client.files[1]])
    with_pages(client, [FIRST, FAR // PAGE + 5], 2)
    stopped(client)
    data = saved(client)
    words = FAR // PAGE // WORD + 1
    assert len(data) == HEAD + 8 * words + SUM and data[-SUM:] == sum_of(data[:-SUM])
    found = {at: it for at, it in enumerate(struct.unpack_from(f"<{words}Q", data, HEAD)) if it}
    assert found == {FIRST // WORD: 1 << FIRST % WORD, words - 1: 1 << 5}
    other = serve()
    other.begin(PROTOCOL)
    assert load(other, data)


def test_each_byte_that_is_changed(ready, serve):
    client = ready()
    with_pages(client, [FIRST], 1)
    stopped(client)
    data = saved(client)
    other = serve("--lines", "100000")
    other.begin(PROTOCOL)
    for at in range(0, len(data)):
        assert not load(other, data[:at] + bytes([data[at] ^ 1]) + data[at + 1 :]), at
    assert load(other, data)


def test_a_state_that_is_longer_than_any(ready):
    """It is read no further than that, so who writes on is told that nobody reads."""
    client = ready()
    stopped(client)
    theirs, ours = os.pipe()
    assert ask(client, theirs, LOAD) == WELL
    written = 0
    with pytest.raises(BrokenPipeError):
        while written < 64 << 20:
            written += os.write(ours, bytes(65536))
    assert written <= (2 << 20) + (1 << 20)
    assert client.send(CHECK_DEVICE_STATE) == WRONG
    assert client.counter("status") == 0


def hand_over(client, file, direction, blocking):
    """Hands a pipe over, which the client, that has it too, may make blocking again."""
    same = os.dup(file)
    assert ask(client, file, direction) == WELL
    os.set_blocking(same, blocking)
    os.close(same)


# Whether a client makes its pipe blocking again.
BLOCKING = pytest.mark.parametrize("blocking", (False, True), ids=("as it was", "blocking"))


@BLOCKING
def test_a_pipe_that_never_ends(ready, blocking):
    """What is asked for meanwhile gets an answer, and no processor's time is taken."""
    client = ready()
    stopped(client)
    theirs, ours = os.pipe()
    hand_over(client, theirs, LOAD, blocking)
    os.write(ours, b"x" * 100)
    assert client.counter("target") == 0
    assert client.is_at_rest()
    assert client.send(CHECK_DEVICE_STATE) == WRONG
    assert "hasn't ended" in client.why()
    with pytest.raises(BrokenPipeError):
        os.write(ours, b"x")


@BLOCKING
def test_a_pipe_that_nobody_reads(ready, blocking):
    """A state of any length waits for its reader, and nobody else does."""
    client = ready()
    stopped(client)
    ours, theirs = os.pipe()
    fcntl.fcntl(theirs, fcntl.F_SETPIPE_SZ, 4096)
    os.write(theirs, b"x" * 4096)
    hand_over(client, theirs, SAVE, blocking)
    assert client.counter("target") == 0
    assert client.is_at_rest()
    assert client.send(CHECK_DEVICE_STATE) == WRONG
    assert "isn't taken whole" in client.why()
    assert os.read(ours, 8192) == b"x" * 4096
    assert os.read(ours, 1) == b""


def test_a_reader_that_goes(ready):
    client = ready()
    stopped(client)
    ours, theirs = os.pipe()
    os.close(ours)
    assert ask(client, theirs, SAVE) == WELL
    assert client.send(CHECK_DEVICE_STATE) == WRONG
    client.go_on([0] * 4)
    demand_served(client, INFLATE, [FIRST])


def has_said(client, words):
    """Whether a client's backend has said this."""
    with open(client.backend.log, encoding="latin-1") as log:
        return words in log.read()


def test_pipes_that_are_let_go_of_as_they_are_found(ready):
    """One that nobody reads any longer, and the end of one that isn't for reading."""
    client = ready()
    stopped(client)
    files, ends = client.open_files(), os.pipe()
    os.close(ends[0])
    assert ask(client, os.dup(ends[1]), SAVE) == WELL
    eventually(lambda: has_said(client, "nobody takes the device's state"))
    assert client.open_files() == files
    assert ask(client, ends[1], LOAD) == WELL
    assert client.send(CHECK_DEVICE_STATE) == WRONG
    assert has_said(client, "the pipe with the device's state can't be read")
    assert client.open_files() == files


def test_files_that_are_no_pipe(ready):
    client = ready()
    stopped(client)
    files = client.open_files()
    for file in (os.memfd_create("state"), os.eventfd(0), os.open("/dev/zero", os.O_RDWR)):
        for direction in (SAVE, LOAD):
            assert ask(client, os.dup(file), direction) == BADLY
            assert "no pipe and no socket" in client.why()
    for direction, phase in ((2, 0), (SAVE, 1), (LOAD, 1), (2**32 - 1, 0)):
        assert ask(client, os.pipe()[direction == SAVE], direction, phase) == BADLY
        assert f"in direction {direction}, in phase {phase}" in client.why()
    assert client.send(CHECK_DEVICE_STATE) == WRONG
    assert client.open_files() == files


def test_files_are_closed(ready):
    client = ready()
    stopped(client)
    files = client.open_files()
    for _ in range(3):
        theirs, ours = os.pipe()
        assert ask(client, theirs, LOAD) == WELL
        saved(client)
        os.close(ours)
    assert client.open_files() == files
    assert client.is_at_rest()
