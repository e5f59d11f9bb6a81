"""A backend on PCI, and a client in the place of QEMU."""

import os

import linux_kit
import pytest
from pci_client import Client

PROGRAMS = ("checked/pci_proxy_balloon",)


@pytest.fixture(scope="session")
def program():
    """The backend under test: one that the environment names, or one that is built with the
    compiler's checks."""
    return os.environ.get("BACKEND_PROGRAM") or linux_kit.built("checked/pci_proxy_balloon")


@pytest.fixture
def serve(program):
    """Returns a client with a backend of its own, whose end the test looks at; what is left is
    ended after the test."""
    clients = []

    def make(*options):
        clients.append(Client(program, *options))
        return clients[-1]

    yield make
    for it in clients:
        it.backend.process.kill()
        it.backend.process.wait()


@pytest.fixture
def client(serve):
    """A client whose backend has to end well."""
    its = serve()
    yield its
    assert its.close() == (0, "")
