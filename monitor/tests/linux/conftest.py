"""A Linux of Debian's own on a backend: the cases that the command line asks for, and what all of
them share."""

import pytest
from linux_bench import ALL_RUNS, SHARED_RUNS, WRONG_DEVICES, Bench
from linux_vmms import FORMS, VMMS


def pytest_addoption(parser):
    """The options of this suite."""
    words = parser.getgroup("linux")
    words.addoption(
        "--form", choices=FORMS, help="the one form in which guest and device notify each other"
    )


def forms_of(config):
    """Returns the forms of the VMM that the command line asks for."""
    asked, forms = config.getoption("--form"), VMMS[config.getoption("--vmm")].forms
    if asked and asked not in forms:
        raise pytest.UsageError(
            f"--form {asked}: guests of this VMM notify their device by {forms[0]} alone"
        )
    return [asked] if asked else forms


def names_of(config):
    """Returns the names of the VMM's runs."""
    return ALL_RUNS if VMMS[config.getoption("--vmm")].has_control else SHARED_RUNS


def cases(names, forms, seeds):
    """Returns all runs: with a guest of each size, in each of the forms, which change places from
    run to run."""
    return [
        (name, memory, forms[(number + place + seed) % len(forms)], seed)
        for seed in seeds
        for place, name in enumerate(names)
        for number, memory in enumerate(ALL_RUNS[name].sizes)
    ]


def pytest_generate_tests(metafunc):
    """Makes a test of each run, and of each wrong device in each form."""
    forms = forms_of(metafunc.config)
    if "name" in metafunc.fixturenames:
        runs = cases(names_of(metafunc.config), forms, range(metafunc.config.getoption("--times")))
        metafunc.parametrize(
            "name, memory, form, seed", runs, ids=["-".join(map(str, it)) for it in runs]
        )
    if "wrong" in metafunc.fixturenames:
        devices = [
            pytest.param(it, form, marks=pytest.mark.wrong(it))
            for it in WRONG_DEVICES
            for form in forms
        ]
        metafunc.parametrize("wrong, form", devices)


@pytest.fixture(scope="session")
def bench(tmp_path_factory, request):
    """A kernel, the program under test, and a folder."""
    asked = request.config.getoption
    return Bench(asked("--vmm"), asked("--suite"), str(tmp_path_factory.mktemp("linux")))
