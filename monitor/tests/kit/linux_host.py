"""Guests with Debian's own Linux on one host that lends them more memory than it has: the host's
process, the guests' work, and what the host holds meanwhile."""

import os
import random
import sys
import threading
import time
from typing import NamedTuple

from linux_guest import PAGES_PER_MIB, Backend
from linux_kit import ROOT, Fault
from linux_member import Member

sys.path.append(os.path.join(ROOT, "client"))

from bigvasta.connection import Connection
from waiting import patience_from_now

MIB = 1 << 20

# Seconds between two looks at what the host holds.
LOOK_EVERY = 0.05

# MiB that a guest fills at random and frees, and those that Linux takes of it.
LEAST_FILL, MOST_FILL, LINUX = 20, 160, 56

# MiB for each guest that the guests leave of the budget, where they use no more than there is.
LEFT = 15

# Seconds for which a guest keeps what it filled, and for which it rests, at most.
MOST_KEEP, MOST_REST = 2.5, 1.0


def pairs(words):
    """Returns names and numbers by the names."""
    return {
        name: int(it) if it.lstrip("-").isdecimal() else it
        for name, it in zip(words[0::2], words[1::2])
    }


class Host(Backend):
    """The process for all guests, and its control pipe. Clients may come as they like."""

    def __init__(self, program, folder, budget, options=(), environment=None):
        self.folder, self.budget = folder, budget
        cost = () if "--cost" in options else ("--cost", "0")
        super().__init__(
            program,
            folder,
            [folder, "--budget", str(budget), *cost, *options],
            environment=environment,
        )

    def close(self):
        """Ends it, and all guests' service; returns its status, or None where it had to be
        killed."""
        try:
            self.process.stdin.write(b"quit\n")
        except OSError:
            pass
        return super().close()

    def status(self):
        """Returns what it and its guests have, by its control socket."""
        with Connection(os.path.join(self.folder, ".control")) as it:
            return it.ask("status")

    def demand(self, line):
        """Has it obey a line."""
        answer = self.ask(line)
        if answer.startswith("error"):
            raise Fault(f"the host answers {line!r}: {answer}")
        return answer

    def ask_lines(self, line):
        """Returns the lines of an answer that says how many there are."""
        with self.lock:
            try:
                self.process.stdin.write(line.encode() + b"\n")
                self.process.stdin.flush()
                end = patience_from_now()
                count = int(self.lines.next(end).split()[1])
                return [self.lines.next(end) for _ in range(count)]
            except (OSError, Fault) as fault:
                raise Fault(f"the host doesn't answer {line!r}: {self.why() or fault}") from None

    def why(self):
        """Returns the last thing that it said on standard error."""
        self.hear()
        return super().why()

    def hear(self):
        """Has it say what guests' processes have told it so far: it answers a line after that."""
        if self.process.poll() is None and self.lock.acquire(blocking=False):
            self.lock.release()
            self.ask("floor")

    def why_of(self, name):
        """Returns the last thing that it said of a guest that it refused."""
        self.hear()
        with open(self.log, encoding="latin-1") as log:
            said = [it.strip() for it in log if it.startswith(f"refused {name}:")]
        return said[-1] if said else "nothing"

    def add(self, name):
        """Makes room for a guest of this name; returns its socket."""
        return self.demand(f"add {name}").split(" ", 1)[1]

    def guests(self):
        """Returns what each guest has, by its name."""
        return {it.split()[0]: pairs(it.split()[1:]) for it in self.ask_lines("guests")}

    def counters(self):
        """Returns the counters of all together."""
        return pairs(self.ask("counters").split())

    def decisions(self):
        """Returns the decisions since the last time: what was decided, and the shares of the guests
        in it."""
        found = []
        for line in self.ask_lines("log"):
            head, *shares = line.split(" | ")
            words = head.split()
            said = pairs(words[: words.index("why")]) | dict(
                zip(("why", "who"), words[words.index("why") + 1 :])
            )
            found.append((said, {it.split()[0]: pairs(it.split()[1:]) for it in shares}))
        return found


class Ledger:
    """What the guests may use together, in MiB; without a limit all may."""

    def __init__(self, limit=None):
        self.limit, self.used, self.lock = limit, 0.0, threading.Lock()

    def take(self, mib):
        """Takes `mib` MiB if they are left; returns whether there are."""
        with self.lock:
            if self.limit is not None and self.used + mib > self.limit:
                return False
            self.used += mib
            return True

    def give(self, mib):
        """Gives back `mib` MiB."""
        with self.lock:
            self.used -= mib


class Sample(NamedTuple):
    """What the host holds at one time, in MiB, what it lends and asks for, what each guest waits
    for, if it waits, the seconds for which one of them hasn't told its statistics, and how much
    each guest is still to give."""

    seconds: float
    held: tuple
    targets: tuple
    spare: tuple
    short: float
    loans: tuple
    waits: tuple
    silent: float
    owes: tuple


class Town:
    """All guests of a host, at work."""

    def __init__(self, vmm, program, folder, budget, options=(), environment=None):
        self.vmm, self.budget, self.members, self.samples, self.faults = vmm, budget, [], [], []
        self.ended, self.begin = threading.Event(), time.monotonic()
        os.makedirs(folder, exist_ok=True)
        self.host = Host(program, folder, budget, options, environment)

    def __enter__(self):
        return self

    def __exit__(self, _kind, fault, _trace):
        """Ends all guests, and the host, which has to end well: it has no fault of its own, and has
        lost no memory."""
        self.ended.set()
        for it in self.members:
            it.close()
        self.host.process.stdout.close()
        status = self.host.close()
        if fault is None and status != 0:
            raise Fault(f"the host ends with status {status}: {self.host.why()}")

    def settle_in(self, names, memory):
        """Boots guests of these names, one after the other, as each has to find room beside those
        before it."""
        for name in names:
            member = Member(self.host, self.vmm, name, memory)
            self.members.append(member)
            member.boot()

    def used_mib(self, members=None):
        """Returns the MiB that all guests, or these, use now: what is neither free nor in a
        balloon."""
        seen = self.host.guests()
        return sum(
            (seen[it.name]["pages"] - seen[it.name]["ballooned"]) / PAGES_PER_MIB - it.free_mib()
            for it in members or self.members
        )

    def work(self, member, chance, ledger, end):
        """A guest's day: it fills files of random sizes, keeps them for a while, and frees them
        again."""
        try:
            while time.monotonic() < end and not self.ended.is_set():
                mib = chance.randint(LEAST_FILL, min(MOST_FILL, (member.memory - LINUX) * 4 // 5))
                if not ledger.take(mib):
                    self.ended.wait(chance.random() * 0.2)
                    continue
                member.fill("work", mib)
                self.ended.wait(min(chance.random() * MOST_KEEP, max(0, end - time.monotonic())))
                member.check("keep")
                member.drop("work")
                ledger.give(mib)
                self.ended.wait(min(chance.random() * MOST_REST, max(0, end - time.monotonic())))
        except Fault as fault:
            self.faults.append(fault)
            self.ended.set()

    def sample(self):
        """Takes a sample."""
        held = tuple(it.held_mib() for it in self.members)
        status = self.host.status()
        seen = {it["name"]: it for it in status["guests"]}
        targets, spare, loans = (
            tuple(seen[it.name][name] / MIB for it in self.members)
            for name in ("target", "spare", "loan")
        )
        waits = tuple(seen[it.name]["waits_for"].replace("nothing", "") for it in self.members)
        silent = max((seen[it.name]["silent"] for it in self.members), default=0)
        owes = tuple(
            max(seen[it.name]["target"] - seen[it.name]["ballooned"], 0) / MIB
            for it in self.members
        )
        return Sample(
            time.monotonic() - self.begin,
            held,
            targets,
            spare,
            status["host"]["missing"] / MIB,
            loans,
            waits,
            silent,
            owes,
        )

    def watch(self, seconds, every=None):
        """Takes samples for `seconds` seconds; calls `every` with one each second."""
        end, line = time.monotonic() + seconds, 0.0
        while time.monotonic() < end and not self.ended.is_set():
            self.samples.append(self.sample())
            if every and time.monotonic() >= line:
                every(self.samples[-1])
                line = time.monotonic() + 1
            self.ended.wait(LOOK_EVERY)

    def live(self, seconds, seed, limit=None, every=None, workers=None):
        """Lets all guests, or these, work for `seconds` seconds, by this seed, and use no more than
        `limit` MiB together."""
        ledger, end = Ledger(limit), time.monotonic() + seconds
        if limit is not None:
            ledger.take(self.used_mib())
        words = [
            (it, random.Random(f"{seed} {it.name}"), ledger, end) for it in workers or self.members
        ]
        threads = [threading.Thread(target=self.work, args=it, daemon=True) for it in words]
        for it in threads:
            it.start()
        self.watch(seconds, every)
        while any(it.is_alive() for it in threads):
            self.watch(LOOK_EVERY)
        for it in threads:
            it.join()
        if self.faults:
            raise self.faults[0]

    def finish(self):
        """Demands that all bytes are right; returns how many processes were killed."""
        for it in self.members:
            if it.guest:
                it.check()
        return sum(len(it.killed()) for it in self.members if it.guest)

    def above(self):
        """Returns by how many MiB each look was above the budget that was."""
        return [sum(it.held) - self.budget for it in self.samples if sum(it.held) > self.budget]
