"""Backends of one guest, and clients of theirs that aren't Linux."""

import os

import linux_kit
import pytest
from vhost_client import QEMU_PROTOCOL
from vhost_moves import PROTOCOL
from vhost_served import Served

PROGRAMS = (
    "checked/vhost_user_balloon",
    "wrong-backend/vhost_user_balloon",
    "loop-checked/vhost_user_balloon",
)

pytest.register_assert_rewrite("vhost_demands", "vhost_moves")


@pytest.fixture(scope="session")
def program():
    """The backend under test: one that the environment names, or one that is built with the
    compiler's checks."""
    return os.environ.get("BACKEND_PROGRAM") or linux_kit.built("checked/vhost_user_balloon")


@pytest.fixture(scope="session")
def wrong_program():
    """The backend that is wrong in the way that its environment's BACKEND_WRONG names."""
    return linux_kit.built("wrong-backend/vhost_user_balloon")


@pytest.fixture
def serve(program):
    """Returns a client with a backend of its own, whose end the test looks at; what is left is
    ended after the test."""
    clients = []

    def make(*options, built=program, environment=None):
        clients.append(Served(built, *options, environment=environment))
        return clients[-1]

    yield make
    for it in clients:
        it.backend.process.kill()
        it.backend.process.wait()


@pytest.fixture
def serve_ready(serve):
    """The same, once its driver is ready."""

    def make(*options):
        client = serve(*options)
        client.start()
        return client

    return make


@pytest.fixture
def serve_well(serve):
    """Returns a client with a backend of its own, which has to end well."""
    clients = []

    def make(*options):
        clients.append(serve(*options))
        return clients[-1]

    yield make
    for it in clients:
        assert it.close() == (0, "")


@pytest.fixture
def start(serve_well):
    """The same, once its driver is ready; it kicks and is called by messages, as virtio_uml."""

    def make(*options):
        client = serve_well(*options)
        client.start()
        return client

    return make


@pytest.fixture
def start_by_events(serve_well):
    """The same, once its driver is ready; it kicks and is called by events, as QEMU."""

    def make(*options, protocol=QEMU_PROTOCOL):
        client = serve_well(*options)
        client.start_by_events(protocol=protocol)
        return client

    return make


@pytest.fixture
def ready(serve):
    """Returns a client whose queues run and that may migrate."""

    def make(*options):
        client = serve(*options)
        client.start_by_events(protocol=PROTOCOL)
        return client

    return make
