"""What the tests of a lender have in common."""

import os
import shutil
import tempfile

import linux_kit
import pytest
from delays import delay_beside
from host_places import Cgroup, Mount, cgroups
from tenants import FREE, Guest, Lender, process_of
from test_strict import STRICT
from vhost_client import Client
from vhost_moves import PROTOCOL

PROGRAMS = (
    "plain/vhost_user_host",
    "checked/vhost_user_host",
    "simulated/vhost_user_host",
    "simulated-wrong/vhost_user_host",
    "loop/vhost_user_host",
    "cut/vhost_user_balloon",
    "plain/vhost_user_chance",
    "plain/sandbox_calls",
    "libvb.so",
)


@pytest.fixture(scope="session")
def plain():
    """The lender's program as it is installed, beside that of its guests; or one that the
    environment names."""
    return os.environ.get("HOST_PROGRAM") or linux_kit.built("plain/vhost_user_host")


@pytest.fixture(scope="session")
def checked():
    """The same with the compiler's checks, and without a sandbox."""
    return linux_kit.built("checked/vhost_user_host")


@pytest.fixture
def lend(tmp_path_factory, plain):
    """Starts lenders of this budget in MiB; those that are still there have to end well."""
    begun = []

    def begin(budget, *options, folder=None, program=plain):
        it = Lender(program, folder or str(tmp_path_factory.mktemp("l")), budget, options)
        begun.append(it)
        return it

    yield begin
    for it in begun:
        if it.is_there():
            assert it.close() == 0, it.said()[-5:]


@pytest.fixture
def come():
    """Has guests come to seats that are there or are added; they go at the end."""
    guests = []

    def begin(lender, name, figures, terms="", **how):
        if name not in lender.guests():
            lender.demand(f"add {name} {terms}".strip())
        it = Guest(lender, name, figures, **how)
        guests.append(it)
        lender.become(name, ready=1, answers=1)
        return it

    yield begin
    for it in guests:
        it.leave()


@pytest.fixture
def beside(lend):
    """A lender, a client at work, and what tells by how much the host delays it while something is
    done."""
    lender = lend(64, "--floor", "0")
    client = Client(lender.add("worker"), lambda: "")
    client.start()
    yield lender, lambda act: delay_beside(act, client, process_of(lender, "worker"))
    client.leave()


@pytest.fixture(params=["tmpfs", "cgroup"])
def limits(request, tmp_path):
    """Makes limits of one kind, which are gone at the end."""
    made = []
    if request.param == "cgroup" and not cgroups():
        pytest.skip("this machine has no cgroups of memory")

    def make(name):
        made.append(Mount(f"{tmp_path}/{name}") if request.param == "tmpfs" else Cgroup(name))
        return made[-1]

    yield make
    for it in made:
        it.end()


@pytest.fixture
def one(lend, come, limits):
    """A host, a guest that has a limit and is asked for 50 of its pages, and one that has none."""
    lender, its = lend(1, *STRICT), limits("a")
    guest = come(lender, "a", {FREE: 100}, f"overhead=0 limit={its.term}")
    other = come(lender, "b", {FREE: 100}, "priority=1")
    lender.become("a", limit=128)
    lender.set_budget(256 - 50)
    lender.become("a", asked=50)
    return lender, guest, other, its


@pytest.fixture
def migrating(lend):
    """Returns makers of lenders, each with a guest that may migrate, whose queues run or not; all
    go at the end."""
    clients = []

    def make(starts=True, budget=2):
        lender = lend(budget, *STRICT, "--lines", "1000")
        client = Client(lender.add("a"), lambda: lender.said()[-4:])
        clients.append(client)
        client.begin(PROTOCOL)
        if starts:
            client.start_by_events(protocol=PROTOCOL)
            lender.become("a", ready=1)
        return lender, client

    yield make
    for it in clients:
        it.leave()


@pytest.fixture
def folder():
    """A folder that each user may write to, as are sockets that are made in it."""
    path, mask = tempfile.mkdtemp(), os.umask(0)
    os.chmod(path, 0o777)
    yield path
    os.umask(mask)
    shutil.rmtree(path)


@pytest.fixture(scope="session")
def cutting():
    """The program of a guest's process that is cut off in one place (cut_lent.c)."""
    return linux_kit.built("cut/vhost_user_balloon")
