"""The installed service under systemd, with a guest at work whose limit is `memory.max` of its own
cgroup: processes are killed, restarted and upgraded, an operator changes settings, and the guest's
client notices nothing (service.py and settings.py say what is done, and what is demanded)."""

import pytest
from debian_disk import FOLDER

# A command in the machine has limits of its own.
pytestmark = pytest.mark.timeout(0)


@pytest.fixture(scope="module")
def service(machine, package):
    """The service, installed from its package, with programs of an older version in place of the
    package's; returns what does a step."""
    if package[1]:
        pytest.fail(package[1], pytrace=False)
    tests = f"{FOLDER}/source/monitor/tests"
    settings = f"PYTHONPATH={tests}/kit:{FOLDER}/source/client"

    def do(step, file="service"):
        return machine.run(f"{settings} python3 -B {tests}/machine/{file}.py {step}", step)

    machine.run(
        (
            f"dpkg -i {FOLDER}/package/*.deb && cp --remove-destination "
            f"{FOLDER}/older/vhost_user_* /usr/bin"
        ),
        "the package",
    )
    do("begin")
    return do


def test_a_killed_process_of_a_guest_is_started_anew(service):
    print(service("processes"))


def test_a_killed_lender_is_started_anew(service):
    print(service("lender"))


def test_a_restart_of_the_service(service):
    print(service("restart"))


def test_an_upgrade_of_the_service(service):
    print(service("upgrade"))


def test_what_is_changed_stays_after_a_restart(service):
    print(service("stays", "settings"))


def test_a_reload_of_a_wrong_file_fails_and_of_a_right_one_is_waited_for(service):
    print(service("file", "settings"))


def test_the_journal_says_who_has_changed_what(service):
    print(service("journal", "settings"))
