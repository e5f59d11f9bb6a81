"""What all runs of a Linux on a backend share: a kernel, the program under test, and a folder."""

import os
import random

import linux_kit
from linux_guest import Guest, Machine, Unbound
from linux_hint_runs import HINT_RUNS
from linux_kit import Fault, demand
from linux_machine_runs import MACHINE_RUNS
from linux_runs import RUNS, SIZES, DeviceFault, audit
from linux_vmms import FORMS, Shape, vmm_of

WRONG_DEVICES = ("1", "2", "3", "4", "5")
SHARED_RUNS = {**RUNS, **HINT_RUNS}
ALL_RUNS = {**SHARED_RUNS, **MACHINE_RUNS}


class Bench:
    """A kernel, the program under test, and a folder."""

    def __init__(self, vmm, suite, folder):
        self.folder, self.count = folder, 0
        self.vmm = vmm_of(vmm, folder, suite)

    def run(self, name, memory, form, seed, wrong=None):
        """Runs one of the runs with a guest of its own; raises a fault where it fails. Returns
        words about it."""
        self.count += 1
        folder = os.path.join(self.folder, f"run-{self.count}")
        run = ALL_RUNS[name]
        options, shape = ["--strict", *FORMS[form], *run.backend_words], Shape(memory, **run.guest)
        program = linux_kit.built(
            f"{'audited-checked' if name in MACHINE_RUNS else 'audited'}/{self.vmm.backend}"
        )
        with Machine(
            self.vmm, program, folder, shape, options, {"BALLOON_WRONG": wrong or "0"}
        ) as machine:
            said = self.judge(machine, run.do, random.Random(f"{name} {memory} {seed}"))
            counters, entries = machine.backend.counters(), audit(machine)
            demand(machine.guest.close(), "the guest doesn't power off")
            status = machine.backend.close()
            demand(status == 0, f"the backend ends with status {status}")
            demand(not machine.backend.why(), "the backend isn't silent")
            demand(not machine.guest.why(), f"the guest's VMM says: {machine.guest.why()}")
        words = [
            f"{counters['inflated']} pages inflated",
            f"{counters['reported']} reported",
            f"{entries} used elements",
        ]
        return ", ".join(
            [*words, *([said] if said else []), f"memory ends at page {counters['end']}"]
        )

    def boot_unbound(self):
        """Boots a guest whose device nobody serves; returns what it says of that."""
        folder = os.path.join(self.folder, "unbound")
        os.mkdir(folder)
        words = self.vmm.words(folder, Shape(SIZES[0]), os.path.join(folder, "nobody"))
        guest = Guest(words, self.vmm.environment(), (), folder, SIZES[0])
        try:
            guest.boot()
        except Unbound as said:
            return said
        finally:
            guest.close()
        raise Fault("a guest whose device nobody serves says that it is ready")

    def judge(self, machine, run, chance):
        """Does the run; where it fails, the device's own fault comes first."""
        try:
            return run(machine, chance)
        except DeviceFault:
            raise
        except Fault as fault:
            try:
                audit(machine)
            except DeviceFault as its:
                raise DeviceFault(f"{its}; {fault}") from None
            except Fault:
                pass
            raise
