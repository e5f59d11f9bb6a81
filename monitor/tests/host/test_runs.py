"""The runs of a host (host_runs.py says which they are), and hosts that are wrong on purpose
(tests/mutants/wrong_host.c)."""

import pytest
from host_killed import hours_run
from host_runs import OF_UML_ALONE, RUNS, WRONG_HOSTS, Bench
from linux_kit import Fault, Missing
from linux_vmms import Uml

# Seconds of a run.
LIMIT = 900


def pytest_generate_tests(metafunc):
    """Makes a test of each run, as often as the command line says."""
    if "run" in metafunc.fixturenames:
        metafunc.parametrize(
            "run", [name for _ in range(metafunc.config.getoption("--times")) for name in RUNS]
        )


@pytest.fixture(scope="session")
def bench(tmp_path_factory, request):
    """A kernel, the programs under test, and a folder."""
    return Bench(request.config.getoption("--vmm"), str(tmp_path_factory.mktemp("runs")))


@pytest.mark.timeout(LIMIT)
def test_run(bench, run):
    if run in OF_UML_ALONE and not isinstance(bench.vmm, Uml):
        pytest.skip("an emulator takes more memory itself than its guest")
    print(RUNS[run](bench))


@pytest.mark.hours
@pytest.mark.timeout(0)
def test_hours(bench, request):
    """It ends by itself: each wait in it has a limit."""
    print(hours_run(bench, request.config.getoption("--hours") * 3600))


@pytest.mark.timeout(LIMIT)
@pytest.mark.parametrize(
    "wrong", [pytest.param(it, marks=pytest.mark.wrong(it)) for it in WRONG_HOSTS]
)
def test_a_wrong_host_fails(bench, wrong):
    """The run that is for it finds it."""
    bench.wrong = wrong
    try:
        said = RUNS[WRONG_HOSTS[wrong]](bench)
    except Missing:
        raise
    except Fault as fault:
        print(f"wrong host {wrong} fails {WRONG_HOSTS[wrong]}: {fault}")
    else:
        raise AssertionError(f"wrong host {wrong} passes {WRONG_HOSTS[wrong]}: {said}")
    finally:
        bench.wrong = None
