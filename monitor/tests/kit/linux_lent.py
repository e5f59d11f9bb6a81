"""A Linux guest that migrates between two hosts, each with its lender, whose budgets are below what
their guests have together."""

from linux_guest import PAGES_PER_MIB
from linux_host import Host
from linux_kit import demand
from linux_migrated import Pair, Side
from vhost_client import Client
from waiting import eventually

# The guest's name; MiB of both hosts, which are less than its memory has and half a MiB of a guest
# beside it, and of one on which all of that has room.
NAME, BUDGET, WIDE = "guest", 160, 300

STRICT = ("--strict", "--floor", "8", "--step", "0")


class LentSide(Side):
    """One of two hosts: a QEMU, a lender, and one more guest that has nothing to give."""

    beside = None

    def begin(self):
        """Starts a lender, or the next one in the place of one that was killed."""
        host = Host(self.program, self.folder, self.budget, STRICT)
        if self.beside is None:
            self.socket = host.add(NAME)
            self.beside = Client(host.add("beside"), host.why)
            self.beside.start()
        return host

    def __init__(self, *words, incoming=False, budget=None):
        self.budget = budget or (BUDGET if incoming else WIDE)
        super().__init__(*words, incoming=incoming)

    def its(self):
        """Returns what the lender says of the guest."""
        return self.backend.guests()[NAME]

    def set_budget(self, mib):
        """Sets the host's budget."""
        self.budget = mib
        self.backend.demand(f"budget {mib}")

    def settle(self):
        """Waits until the guest's balloon is as it is asked for, and what is lent is within the
        budget."""
        is_settled = lambda it, all_of_it: (
            it["ready"]
            and it["ballooned"] == it["asked"]
            and all_of_it["lent"] <= all_of_it["frames"]
        )
        eventually(
            lambda: is_settled(self.its(), self.backend.counters()),
            lambda: f"{self.its()}: {self.backend.counters()}",
        )

    def renew_lender(self):
        """Kills the lender, and starts another one, which knows of the guest and its balloon again:
        until then all its pages count as lent."""
        process = self.its()["process"]
        self.stop()
        self.backend = self.begin()
        eventually(lambda: self.its()["process"] == process and self.its()["ballooned"])

    def demand_within(self):
        """Demands that neither what is lent nor what is held is above the budget."""
        counters, held = self.backend.counters(), self.held_mib() + self.beside_mib()
        lent = counters["lent"]
        demand(lent <= counters["frames"], f"{lent} frames are lent: {counters}")
        demand(held <= self.budget, f"{held} MiB are held, of {self.budget}")

    def beside_mib(self):
        """Returns the MiB that the guest beside it holds."""
        return self.backend.guests()["beside"]["pages"] / PAGES_PER_MIB

    def said(self):
        """Returns what the lender has said."""
        self.backend.hear()
        with open(self.backend.log, encoding="latin-1") as log:
            return log.read().splitlines()

    def close(self):
        """Ends all."""
        super().close()
        self.beside.leave()


class LentPair(Pair):
    """A guest on one host, and another host, to which it may migrate. At each look neither is above
    its budget."""

    of, room = LentSide, None

    def side(self, incoming):
        """Starts one more side."""
        folder = f"{self.folder}/side{self.number}"
        self.number += 1
        words = (self.vmm, self.program, folder, self.shape, self.options)
        budget = self.room if incoming else None
        self.sides.append(self.of(*words, incoming=incoming, budget=budget))
        return self.sides[-1]

    def look(self):
        """Looks at both hosts, too."""
        for it in self.sides:
            it.demand_within()
        return super().look()
