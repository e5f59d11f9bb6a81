"""Who waits first of those that restart or come, and can't be served, lets others pass once the
host's patience is over."""

import time

import pytest
from tenants import FREE
from test_lines import begin_anew
from test_strict import GIVEN, STRICT, Later, waits_of
from vhost_client import Client

# Seconds of a host's patience here, and the frames of a MiB.
PATIENCE, FRAMES = 3, 256


class Small(Client):
    """A client of 32 pages, who has no driver yet."""

    pages_of_region = 16


class Large(Client):
    """A client of as many pages as the host has frames."""

    pages_of_region = FRAMES // 2


@pytest.fixture
def bring():
    """Has clients wait with their memory; they go at the end."""
    clients = []

    def begin(lender, name, kind):
        clients.append(kind(lender.add(name), lambda: ""))
        clients[-1].negotiate()
        comes = Later(clients[-1].hand_over_memory)
        lender.become(name, waits="room")
        return comes

    yield begin
    for it in clients:
        it.leave()


@pytest.fixture
def patient(lend):
    """A host of 256 frames that is patient for a moment."""
    return lend(1, *STRICT, "--patience", str(PATIENCE))


def test_a_large_client_lets_a_small_one_pass(patient, come, bring):
    """The host has 128 frames that nobody can have: a guest that restarts comes first at once,
    and a small client that came later after a while; the large one waits on."""
    a, b = come(patient, "a", {FREE: 0}), come(patient, "b", {FREE: 100})
    large = bring(patient, "large", Large)
    begun = time.monotonic()
    patient.become("b", target=100)
    b.give_free(GIVEN[:100])
    patient.become("b", ballooned=100, lent=28)
    small = bring(patient, "small", Small)
    begin_anew(b).ends()
    patient.become("b", lent=128, waits="nothing")
    patient.set_budget(FRAMES + 32)
    small.ends()
    assert time.monotonic() - begun >= PATIENCE
    patient.become("small", pages=32, lent=32)
    assert large.waits() and waits_of(patient, "large") == "room" and a.is_alive()


def test_a_new_life_lets_others_pass(patient, come, bring):
    """Of 40 frames there is no room for the 50 pages of the guest that restarted first: after a
    while another one has its 30, and a client that came later waits until there is room for it."""
    a, b = come(patient, "a", {FREE: 50}), come(patient, "b", {FREE: 30})
    patient.set_budget(FRAMES - 80)
    patient.become("a", target=50), patient.become("b", target=30)
    a.give_free(GIVEN[:50]), b.give_free(GIVEN[:30])
    patient.become("a", ballooned=50, lent=78), patient.become("b", ballooned=30, lent=98)
    first, begun = begin_anew(a), time.monotonic()
    patient.become("a", waits="reset")
    second = begin_anew(b)
    patient.become("b", waits="reset")
    small = bring(patient, "small", Small)
    patient.set_budget(FRAMES - 40)
    second.ends()
    assert time.monotonic() - begun >= PATIENCE
    patient.become("b", lent=128)
    assert first.waits() and small.waits()
    patient.set_budget(FRAMES - 40 + 22)
    small.ends()
    assert first.waits() and waits_of(patient, "a") == "reset"
    patient.set_budget(FRAMES + 32)
    first.ends()
