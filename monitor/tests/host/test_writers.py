"""The process that writes a guest's limit: its files, and that it lives as long as the limit is the
same."""

import os
import resource

import pytest
from host_checks import files_of
from tenants import FREE, eventually, has_ended, status_of, writer_of
from test_strict import STRICT, Later
from vhost_client import Client

pytestmark = pytest.mark.skipif(os.geteuid() != 0, reason="mounts and cgroups are for root")

# Files that a lender opens for a writer, before it closes any: what that locks, and the ends of a
# channel.
FILES_OF_WRITER = 3


def test_a_writer_has_its_channel_and_its_lock_alone(lend, come, limits):
    lender, its = lend(1, *STRICT), limits("a")
    come(lender, "a", {FREE: 100}, f"overhead=0 limit={its.term}")
    lender.become("a", limit=128)
    folder = f"/proc/{writer_of(lender, 'a')}/fd"
    channel, lock = os.readlink(f"{folder}/0"), f"{lender.folder}/.channels/.a"
    assert channel.startswith("socket:")
    eventually(
        lambda: [os.readlink(f"{folder}/{it}") for it in sorted(os.listdir(folder))]
        == [channel, channel, channel, lock],
        lambda: os.listdir(folder),
    )


def test_a_writer_blocks_no_signal(lend, come, checked, limits):
    """Though its lender does, which waits for them in its loop."""
    lender, its = lend(1, *STRICT, program=checked), limits("a")
    come(lender, "a", {FREE: 100}, f"overhead=0 limit={its.term}")
    assert int(status_of(lender.process.pid)["SigBlk"], 16)
    assert not int(status_of(writer_of(lender, "a"))["SigBlk"], 16)


def test_of_a_writer_that_finds_too_few_files_left_none_stays_open(lend, limits):
    lender, its = lend(1, *STRICT), limits("a")
    lender.demand(f"add a overhead=0 limit={its.term}")
    client, process = Client(f"{lender.folder}/a", lambda: ""), lender.process.pid
    client.negotiate()
    had, most = files_of(process), resource.prlimit(process, resource.RLIMIT_NOFILE)
    resource.prlimit(process, resource.RLIMIT_NOFILE, (had, most[1]))
    comes = Later(client.hand_over_memory)
    for left in range(FILES_OF_WRITER):
        said = len(lender.said())
        resource.prlimit(process, resource.RLIMIT_NOFILE, (had + left, most[1]))
        eventually(lambda: "Too many open files" in "".join(lender.said()[said:]), f"{left} left")
        eventually(lambda: files_of(process) == had, f"files stay open where {left} are left")
    resource.prlimit(process, resource.RLIMIT_NOFILE, most)
    comes.join()
    client.leave()


def test_other_terms_leave_a_limit_as_it_is(lend, come, limits):
    lender, its, other = lend(1, *STRICT), limits("a"), limits("b")
    come(lender, "a", {FREE: 100}, f"overhead=0 limit={its.term}")
    lender.become("a", limit=128)
    writer = writer_of(lender, "a")
    lender.demand("terms a priority=3 least=0")
    lender.become("a", priority=3, limit=128)
    assert writer_of(lender, "a") == writer and not has_ended(writer)
    lender.demand(f"terms a limit={other.term}")
    lender.become("a", limit=128)
    assert writer_of(lender, "a") != writer
