"""Tests of QEMU's own commands for a balloon, and of what it forbids, over this repository's
device."""

import os

import linux_kit
import pytest
from linux_guest import Backend
from linux_packages import Fault
from linux_vmms import build_preloaded
from migrate_demands import SMALL, demand_obeys
from vhost_client import GET_FEATURES
from waiting import eventually

# Bytes of the features of a device.
FEATURES_SIZE = 8


def test_qemu_s_commands(pair):
    pair = pair()
    side, path = pair.source, "/machine/peripheral/balloon"
    assert side.size_mib() == 256
    side.set_size(SMALL)
    side.qmp.await_event("BALLOON_CHANGE", actual=SMALL << 20)
    assert "actual=128" in side.qmp.do("human-monitor-command", **{"command-line": "info balloon"})
    interval = {"path": path, "property": "guest-stats-polling-interval"}
    side.qmp.do("qom-set", **interval, value=1)
    said = lambda: side.qmp.do("qom-get", path=path, property="guest-stats")
    first = eventually(lambda: (lambda it: it if it["last-update"] else None)(said()))
    assert len(first["stats"]) == 16
    assert 0 < first["stats"]["stat-free-memory"] < first["stats"]["stat-total-memory"] < 256 << 20
    eventually(lambda: said()["last-update"] > first["last-update"])
    assert side.qmp.do("qom-get", **interval) == 1
    with pytest.raises(Fault, match="greater than zero"):
        side.qmp.do("qom-set", **interval, value=-1)


def demand_refused(side, folder, words, program, **environment):
    """Demands that QEMU refuses one more balloon with these words. Its backend may go then, and
    nobody looks for it."""
    os.mkdir(folder)
    other = Backend(program, folder, [f"{folder}/socket"], environment=environment)
    with pytest.raises(Fault, match=words):
        side.plug(f"{folder}/socket")
    other.close()
    demand_obeys(side)


def test_a_second_balloon(pair, tmp_path):
    side = pair().source
    demand_refused(side, tmp_path / "other", "Only one balloon device is supported", side.program)


def test_a_backend_without_a_control_area(pair, tmp_path):
    program = linux_kit.built("wrong-backend/vhost_user_balloon")
    words = "the backend has no control area of version 1"
    demand_refused(pair().source, tmp_path / "other", words, program, BACKEND_WRONG="no-area")


def test_a_backend_without_features(bare):
    """QEMU asks twice: the answer that counts has none."""
    (qemu, between), answers = bare(), []

    def change(request, body):
        answers.append(request == GET_FEATURES and len(body) == FEATURES_SIZE)
        return bytes(FEATURES_SIZE) if answers[-1] and sum(answers) == 2 else body

    between.change = change
    with pytest.raises(Fault, match="the backend lacks VIRTIO_F_VERSION_1"):
        qemu.plug(between.path)


def demand_inflates(qemu, page, stays):
    """Demands that a page goes into the balloon, and that its frame stays, or doesn't."""
    qemu.fill(page)
    qemu.inflate(page)
    assert qemu.holds(page) == stays


def test_memory_that_may_not_be_discarded(bare, tmp_path):
    """The backend keeps its pages, and so does each that comes later. What a guest that is loaded
    has as a hole is cleared instead."""
    page, dropped, path = 0x1000, 0x2000, str(tmp_path / "saved")
    source, between = bare()
    source.plug(between.path), source.drive()
    demand_inflates(source, page, stays=False)
    assert source.save(path) is None
    pinned = build_preloaded(str(tmp_path), "no_discards")
    side, between = bare(pinned, more=("-incoming", "defer"))
    side.plug(between.path, **{"reconnect-ms": 20})
    side.fill(page)
    assert side.load(path) is None
    assert side.holds(page) and side.ask(f"readq {page << 12:#x}") == 0
    side.inflated = source.inflated
    for at in (dropped, dropped + 1):
        side.qmp.do("cont")
        eventually(between.runs, side.why)
        demand_inflates(side, at, stays=True)
        between.cut(0), side.target()


def test_a_snapshot_in_the_background(bare, tmp_path):
    """It is refused before QEMU reads memory: its memory is to be that of its begin."""
    qemu, between = bare()
    qemu.plug(between.path), qemu.drive()
    demand_inflates(qemu, 0x1000, stays=False)
    capability = {"capability": "background-snapshot", "state": True}
    qemu.qmp.do("migrate-set-capabilities", capabilities=[capability])
    why = qemu.save(str(tmp_path / "saved"))
    assert why and "a background snapshot doesn't see" in why
    assert not qemu.holds(0x1000)
    assert qemu.qmp.do("query-status")["running"]
