"""Runs tasks at once: on the processors of this machine, or on the workers of a Dask scheduler.
Answers come in the order of their tasks."""

import concurrent.futures
import ctypes
import re
import signal
import socket

from bigvasta.plan.progress import Progress
from bigvasta.statuses import Away, Unclear, Usage

# Seconds in which somebody has to take a connection, in which it has to prove a scheduler, and in
# which a worker has to come to that.
LIMIT, ANSWER_LIMIT, WORKER_LIMIT = 5, 10, 60

MOST_PORT = 65535

# Of prctl(2).
PR_SET_PDEATHSIG = 1


def gather(numbers, ended, out):
    """Returns the results of futures in the order of their numbers, as they end."""
    results, progress = [None] * len(numbers), Progress(len(numbers), out)
    for it in ended(list(numbers)):
        results[numbers.pop(it)] = it.result()
        progress.step()
    return results


def end_with_parent():
    """Has the kernel end this process with the one that started it, however that ends."""
    ctypes.CDLL(None).prctl(PR_SET_PDEATHSIG, signal.SIGKILL)


class Processes:
    """As many processes as are asked for."""

    def __init__(self, count, out):
        self.count, self.out = count, out

    def run_all(self, run, tasks):
        """Returns the answers of all tasks."""
        pool = concurrent.futures.ProcessPoolExecutor(self.count, initializer=end_with_parent)
        try:
            return gather(
                {pool.submit(run, it): number for number, it in enumerate(tasks)},
                concurrent.futures.as_completed,
                self.out,
            )
        except concurrent.futures.BrokenExecutor:
            raise Unclear("plan: one of its processes was ended, as by a lack of memory") from None
        finally:
            pool.shutdown(cancel_futures=True)


class Scheduler:
    """The workers of a Dask scheduler. What a worker had that goes is done again on another one."""

    def __init__(self, address, out):
        self.address, self.out = address, out
        found = re.fullmatch(r"tcp://\[?([^/\s\[\]]+)\]?:(\d{1,5})", address, re.ASCII)
        if not found or int(found[2]) > MOST_PORT:
            raise Usage(f"--scheduler: {address!r} is no tcp://HOST:PORT")
        self.pair = found[1], int(found[2])
        self.dask = load()

    def connect(self):
        """Returns a client of the scheduler, which has a worker."""
        try:
            socket.create_connection(self.pair, LIMIT).close()
        except (OSError, TimeoutError):
            raise Away(f"--scheduler: nobody answers at {self.address}") from None
        try:
            client = self.dask.Client(self.address, timeout=ANSWER_LIMIT)
        except (OSError, TimeoutError):
            raise Away(
                f"--scheduler: who answers at {self.address} doesn't speak as a Dask scheduler, "
                f"in {ANSWER_LIMIT} s"
            ) from None
        try:
            client.wait_for_workers(1, timeout=WORKER_LIMIT)
        except (OSError, TimeoutError):
            client.close()
            raise Away(f"--scheduler: no worker comes to {self.address}") from None
        return client

    def run_all(self, run, tasks):
        """Returns the answers of all tasks."""
        with self.connect() as client:
            try:
                return gather(
                    {client.submit(run, it, pure=False): number for number, it in enumerate(tasks)},
                    self.dask.as_completed,
                    self.out,
                )
            except ModuleNotFoundError as fault:
                raise Usage(
                    f"--scheduler: a worker lacks the module {fault.name}: it needs the packages "
                    "that this machine has"
                ) from None
            except self.dask.KilledWorker:
                raise Unclear(
                    "--scheduler: the workers that had a task were killed, one after the other"
                ) from None
            except (OSError, TimeoutError, concurrent.futures.CancelledError):
                raise Away(f"--scheduler: {self.address} went away") from None


def load():
    """Returns Dask's distributed tasks, which say nothing on standard error by themselves."""
    try:
        import distributed
    except ImportError:
        raise Usage("--scheduler wants Dask: apt-get install python3-distributed") from None
    import logging

    logging.getLogger("distributed").setLevel(logging.CRITICAL)
    return distributed
