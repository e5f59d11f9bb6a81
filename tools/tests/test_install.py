"""Tests `make install` of monitor: what it installs over the plain implementation is linked to as a
release's package is."""

import importlib.machinery
import importlib.util
import os
import subprocess

import pytest

from source_files import ROOT


@pytest.fixture(scope="module")
def installed(tmp_path_factory):
    """A folder in which all is installed for /opt/vb."""
    folder = tmp_path_factory.mktemp("installed")
    words = ["make", "-s", "-C", "monitor", "install", "LIB=reference", "prefix=/opt/vb"]
    subprocess.run([*words, f"DESTDIR={folder}"], cwd=ROOT, check=True)
    return folder


def release():
    """Returns tools/release as a module."""
    loader = importlib.machinery.SourceFileLoader("release", f"{ROOT}/tools/release")
    module = importlib.util.module_from_spec(importlib.util.spec_from_loader(loader.name, loader))
    loader.exec_module(module)
    return module


def test_its_headers_are_those_of_a_release(installed):
    its = release()
    headers = os.listdir(installed / "opt/vb/include/bigvasta")
    assert sorted(headers) == sorted((*its.PROVED_HEADERS, *its.SHIMS))


def test_an_example_is_linked_to_it(installed):
    found = {**os.environ, "PKG_CONFIG_PATH": f"{installed}/opt/vb/lib/pkgconfig"}
    ask = ["pkg-config", f"--define-variable=prefix={installed}/opt/vb"]
    flags = subprocess.run([*ask, "--cflags", "--libs", "vb"], env=found, capture_output=True)
    assert flags.stderr == b""
    program = installed / "example"
    words = ["cc", "-o", program, f"{ROOT}/monitor/examples/example.c", *flags.stdout.split()]
    subprocess.run(words, check=True)
    assert subprocess.run([program], capture_output=True).returncode == 0


def test_it_says_that_nothing_of_it_is_proved(installed):
    described = (installed / "opt/vb/lib/pkgconfig/vb.pc").read_text()
    assert "of which nothing is proved" in described
    assert "@" not in described and "prefix=/opt/vb\n" in described
