"""The balloon with Debian's own Linux and its own driver. The runs, each with a guest of its own:

    main      a hog fills memory; reports; an inflate beside kept bytes; a deflate; the hog again;
              statistics
    churn     thirty random targets, some changed before they are reached
    oom       a process that wants more than the balloon leaves lives, by DEFLATE_ON_OOM; the
              balloon is refilled
    unload    the driver is unloaded with pages in the balloon, and loaded again
    compact   the guest's kernel moves pages that are in the balloon
    hints     a hog is freed, and a round of free page hints, which are discarded, brings it back;
              after DONE memory is filled again
    amid      rounds of hints end amid, beside reports
    zeroed    a kernel that fills free pages with zeros (init_on_free=1) reports, since PAGE_POISON
              is offered, and not else

Under QEMU also:

    written   at each sample `actual` is what is in the balloon, but for the one request that the
              driver has posted
    pause     the machine is stopped and continues, amid inflates and deflates
    plug      with pages in its balloon the machine is stopped, and the device is unplugged, and
              plugged again over the same connection; it has five queues
    dimm      memory is plugged in, and goes into the balloon
    reset     the machine is reset with pages in the balloon
    reboot    the guest reboots itself with pages in the balloon
    pair      random targets, with two processors, and five queues of 1,024 descriptors
    large     4 GiB, of which the part above the hole below 4 GiB goes into the balloon, too

What is demanded: at each kick, used index and ids are those of what was taken; pages are discarded
before their request is used, and no page becomes a hole that the guest didn't name; after a memory
was filled, what the host holds falls by at least 90% of what is inflated; kept bytes have their
sums; the kernel finds no fault. Every wait has a limit.
"""

import itertools

import pytest
from linux_kit import Fault, Missing
from linux_runs import RUNS, SIZES

# Seconds of a run, under emulation on a machine that has other work; a wrong device is given each
# run.
LIMIT = 3600


@pytest.mark.timeout(LIMIT)
def test_a_guest_whose_device_nobody_serves_says_so(bench, request):
    if request.config.getoption("--vmm") != "uml":
        pytest.skip("a guest of User Mode Linux alone can be without its device")
    print(bench.boot_unbound())


@pytest.mark.timeout(LIMIT)
def test_run(bench, name, memory, form, seed):
    print(bench.run(name, memory, form, seed))


@pytest.mark.timeout(2 * LIMIT)
def test_a_wrong_device_fails(bench, wrong, form):
    """A device that is wrong on purpose (tests/mutants/wrong_device.c) fails one of the runs."""
    for name, memory in itertools.product(RUNS, SIZES):
        try:
            bench.run(name, memory, form, 0, wrong)
        except Missing:
            raise
        except Fault as fault:
            print(f"wrong device {wrong}, by {form}, fails {name}: {fault}")
            return
    raise AssertionError(f"wrong device {wrong} passes all runs")
