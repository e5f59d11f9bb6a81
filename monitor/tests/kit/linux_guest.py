"""Debian's own Linux on a balloon of this repository: a guest, its device, and what may be asked of
them."""

import os
import select
import signal
import stat
import subprocess
import threading
import time

from linux_packages import Fault, last_line
from waiting import PATIENCE, patience_from_now

PAGES_PER_MIB = 256

# Seconds of a boot where limits are what they say; a guest whose boot takes longer has more time
# for the rest, too.
USUAL_BOOT = 10


class Lines:
    """Lines that a program prints, each awaited for a limited time."""

    def __init__(self, stream, what):
        self.stream, self.what, self.rest = stream, what, b""

    def next(self, end):
        """Returns the next line; it has to come before this time of the monotonic clock."""
        while b"\n" not in self.rest:
            left = end - time.monotonic()
            if left <= 0 or not select.select([self.stream], [], [], left)[0]:
                raise Fault(f"{self.what} hangs: no line in time{self.said()}")
            got = os.read(self.stream.fileno(), 1 << 16)
            if not got:
                raise Fault(f"{self.what} has gone{self.said()}")
            self.rest += got
        line, self.rest = self.rest.split(b"\n", 1)
        return line.decode("latin-1").strip()

    def said(self):
        """Returns what it began to say."""
        return f": {self.rest.decode('latin-1').strip()}" if self.rest.strip() else ""


class Backend:
    """The device's process, and its control pipe."""

    def __init__(self, program, folder, words, files=(), environment=None):
        self.log = os.path.join(folder, "backend.log")
        self.lock = threading.Lock()
        with open(self.log, "wb") as log:
            self.process = subprocess.Popen(
                [program, *words],
                stdin=subprocess.PIPE,
                stdout=subprocess.PIPE,
                stderr=log,
                pass_fds=files,
                env={**os.environ, **(environment or {})},
            )
        self.lines = Lines(self.process.stdout, "the backend")
        self.lines.next(patience_from_now())

    def why(self):
        """Returns the last thing that it said on standard error."""
        with open(self.log, encoding="latin-1") as log:
            return last_line(log.read())

    def ask(self, line):
        """Returns its answer to a line."""
        with self.lock:
            try:
                self.process.stdin.write(line.encode() + b"\n")
                self.process.stdin.flush()
                return self.lines.next(patience_from_now())
            except (OSError, Fault) as fault:
                raise Fault(f"the backend doesn't answer {line!r}: {self.why() or fault}") from None

    def in_parts(self, first, last):
        """Writes two parts of lines, with a rest between them; returns as many answers as there are
        lines."""
        with self.lock:
            for part in (first, last):
                self.process.stdin.write(part)
                self.process.stdin.flush()
                time.sleep(0.1)
            return [
                self.lines.next(patience_from_now()) for _ in range((first + last).count(b"\n"))
            ]

    def counters(self):
        """Returns its counters by their names."""
        words = self.ask("counters").split()
        return dict(zip(words[0::2], map(int, words[1::2])))

    def is_at_rest(self):
        """Whether it takes no processor's time, and isn't woken, while nobody wants anything of it,
        but for its own looks."""

        def seconds_and_wakes():
            with open(f"/proc/{self.process.pid}/stat", encoding="ascii") as its:
                ticks = sum(map(int, its.read().rsplit(")", 1)[1].split()[11:13]))
            with open(f"/proc/{self.process.pid}/status", encoding="ascii") as its:
                wakes = sum(int(it.split()[1]) for it in its if "ctxt_switches" in it)
            return ticks / os.sysconf("SC_CLK_TCK"), wakes

        before = seconds_and_wakes()
        time.sleep(0.8)
        seconds, wakes = (now - then for now, then in zip(seconds_and_wakes(), before))
        return seconds < 0.1 and wakes < 100

    def statistics(self):
        """Returns how often the guest told its statistics, and the last ones by their names."""
        _, count, *words = self.ask("statistics").split()
        return int(count), dict(zip(words[0::2], map(int, words[1::2])))

    def close(self):
        """Ends it; returns its status, or None where it had to be killed."""
        with self.lock:
            try:
                self.process.stdin.close()
            except OSError:
                pass
        try:
            return self.process.wait(PATIENCE)
        except subprocess.TimeoutExpired:
            self.process.kill()
            self.process.wait()
            return None


class Unbound(Fault):
    """A guest boots, and its driver has no device."""


class Guest:
    """Linux as a process of the host, and its console."""

    def __init__(self, words, environment, files, folder, memory):
        self.memory, self.held = memory, None
        self.log = os.path.join(folder, "guest.log")
        with open(self.log, "wb") as log:
            self.process = subprocess.Popen(
                words,
                stdin=subprocess.PIPE,
                stdout=subprocess.PIPE,
                stderr=log,
                cwd=folder,
                pass_fds=files,
                env=environment,
                start_new_session=True,
            )
        self.lines = Lines(self.process.stdout, "the guest")

    def why(self):
        """Returns the last thing that its VMM said of itself."""
        with open(self.log, encoding="latin-1") as log:
            return last_line(log.read())

    def how_it_ended(self):
        """Returns how its process ended, as words that follow others; none where it runs."""
        try:
            return f" (status {self.process.wait(1)})"
        except subprocess.TimeoutExpired:
            return ""

    def boot(self):
        """Waits until its driver is loaded, and drives its device."""
        end, said = patience_from_now(), []
        while not said or not said[-1].startswith(("READY", "UNBOUND")):
            try:
                said.append(self.lines.next(end))
            except Fault as fault:
                raise Fault(
                    f"{fault} at its boot{self.how_it_ended()}: "
                    f"{' / '.join([*said[-3:], *filter(None, [self.why()])])}"
                ) from None
        if said[-1] != "READY":
            raise Unbound(
                f"the guest boots, but its driver has no device: {said[-1].partition(' ')[2]}"
            )
        if self.held is None:
            self.held = self.memory_file()

    def memory_file(self):
        """Opens the file that is the guest's memory: it has no name, but the guest's process has it
        open."""
        folder = f"/proc/{self.process.pid}/fd"
        for name in os.listdir(folder):
            try:
                its = os.stat(f"{folder}/{name}")
            except FileNotFoundError:
                continue
            if stat.S_ISREG(its.st_mode) and its.st_nlink == 0 and its.st_size >= self.memory << 20:
                return os.open(f"{folder}/{name}", os.O_RDONLY | os.O_CLOEXEC)
        raise Fault("the guest's memory file isn't there")

    def held_mib(self):
        """Returns the MiB that its memory file holds on the host; 0 where it has none yet."""
        return 0.0 if self.held is None else os.fstat(self.held).st_blocks / 2048

    def let_go(self):
        """Closes the file of its memory, which lives on while that is open."""
        if self.held is not None:
            os.close(self.held)
            self.held = None

    def begin(self, line):
        """Has it start to obey a line."""
        try:
            self.process.stdin.write(line.encode() + b"\n")
            self.process.stdin.flush()
        except OSError:
            raise Fault(f"the guest has gone before {line!r}") from None

    def end(self, line, limit=PATIENCE):
        """Waits for the line's end; returns its status and what it printed."""
        until, said = time.monotonic() + limit, []
        while True:
            try:
                got = self.lines.next(until)
            except Fault as fault:
                raise Fault(f"{fault}, at {line!r}") from None
            if got.startswith("DONE "):
                return int(got.split()[1]), said
            said.append(got)

    def do(self, line, limit=PATIENCE):
        """Has it obey a line; returns what it printed. Its status has to be 0."""
        self.begin(line)
        status, said = self.end(line, limit)
        if status != 0:
            raise Fault(f"the guest ends {line!r} with status {status}: {' / '.join(said[-3:])}")
        return said

    def available_mib(self):
        """Returns the MiB that it calls available: free, or in use for what it can let go."""
        words = dict(it.split(":") for it in self.do("memory"))
        return int(words["MemAvailable"].split()[0]) / 1024

    def memory_mib(self):
        """Returns the MiB that it has in all, and those that are free."""
        words = dict(it.split(":") for it in self.do("memory"))
        return tuple(int(words[name].split()[0]) / 1024 for name in ("MemTotal", "MemFree"))

    def close(self):
        """Has it power off; kills its processes where it doesn't. Returns whether it powered off
        itself."""
        self.let_go()
        try:
            self.begin("exit")
            self.process.wait(PATIENCE)
            gone = True
        except (Fault, subprocess.TimeoutExpired):
            gone = False
        try:
            os.killpg(self.process.pid, signal.SIGKILL)
        except ProcessLookupError:
            pass
        self.process.wait()
        return gone


class Machine:
    """A guest of a VMM, and its device."""

    def __init__(self, vmm, program, folder, shape, options=(), environment=None):
        os.makedirs(folder, exist_ok=True)
        self.vmm, self.shape, self.memory, self.guest, self.control = (
            vmm,
            shape,
            shape.memory,
            None,
            None,
        )
        (word, files), (guest_word, guest_files) = vmm.connect(folder)
        try:
            words = vmm.words(folder, shape, guest_word)
            self.backend = Backend(
                program, folder, [word, *options], [it.fileno() for it in files], environment
            )
            self.boot(words, [it.fileno() for it in guest_files], folder)
        finally:
            for it in (*files, *guest_files):
                it.close()

    def boot(self, words, files, folder):
        """Starts the guest, and waits for its driver; notes how slow the machine is."""
        begin = time.monotonic()
        try:
            self.guest = Guest(words, self.vmm.environment(), files, folder, self.memory)
            self.guest.boot()
            self.patience = max(self.vmm.patience, (time.monotonic() - begin) / USUAL_BOOT)
            self.control = self.vmm.control(folder)
        except BaseException as fault:
            self.__exit__(None, fault, None)
            raise

    def __enter__(self):
        return self

    def __exit__(self, _kind, fault, _trace):
        """Ends both, and adds to a fault what the backend said of it."""
        why = self.close()
        if isinstance(fault, Fault) and why and why not in str(fault):
            raise Fault(f"{fault}; the backend said: {why}") from None

    def set_target(self, mib):
        """Asks for a balloon of `mib` MiB."""
        answer = self.backend.ask(f"target {mib * PAGES_PER_MIB}")
        if answer != "ok":
            raise Fault(f"the backend answers a target of {mib} MiB: {answer}")

    def end_of(self, limit):
        """Returns when a wait of this limit ends, by the monotonic clock: it is longer under
        emulation, and where the boot was slow."""
        return time.monotonic() + limit * self.patience

    def settle(self, limit):
        """Waits until `actual` is the target; returns the seconds, or None where the limit came
        first."""
        begin, end = time.monotonic(), self.end_of(limit)
        while time.monotonic() < end:
            counters = self.backend.counters()
            if counters["actual"] == counters["target"]:
                return time.monotonic() - begin
            time.sleep(0.01)
        return None

    def sums(self, *names):
        """Returns the sums of files that the guest keeps in memory."""
        return self.guest.do(f"sums {' '.join(names)}")

    def statistics(self):
        """Asks the guest for new statistics, and returns them by their names."""
        end = patience_from_now()
        before, _ = self.backend.statistics()
        # A driver that has just begun gives its buffer after its first queue runs.
        while self.backend.ask("ask") != "asked":
            if time.monotonic() >= end:
                raise Fault("the guest has given no buffer for statistics")
            time.sleep(0.01)
            before, _ = self.backend.statistics()
        while time.monotonic() < end:
            count, figures = self.backend.statistics()
            if count > before:
                return figures
            time.sleep(0.01)
        raise Fault("the guest doesn't tell its statistics")

    def close(self):
        """Ends both; returns what the backend said last on standard error."""
        if self.control:
            self.control.close()
        if self.guest:
            self.guest.close()
        self.backend.close()
        return self.backend.why()
