"""Requests of a run on threads that are refused, and its threads, for tools/refuse-memory: by the
program and by its tests."""

import sys

from refuse_program import WANT, Run
from refuse_scripts import GUESTS

# What the test of an allocation failure says that a run left.
NO_RUN, NO_REPORT, REPORT = "left: NoRun", "left: NoReport", "left: Report"

# A run of two guests with one processor each has a thread for each processor and each worker, and
# one that balances.
THREADS = 5


def threads_script():
    """Returns the lines of two guests, each of which takes, writes, reads and frees a page, 25
    times."""
    lines = ["host 64", "spare paced", "spare paced", "plug 64 8 1", "plug 64 8 1"]
    for guest in GUESTS:
        lines += [
            f"alloc {guest} 0 0",
            f"write {guest} 16 0 aa",
            f"read {guest} 16 0 1",
            f"free {guest} 0 16 0",
        ] * 25
    return lines


def is_whole(run):
    """Whether a run on threads printed a line for each guest, with all its calls, and that no frame
    is shared."""
    guests = [f"guest {it} calls 100 frames " for it in GUESTS]
    said = [line.rstrip("0123456789") for line in run.replies[:-1]]
    return (
        run.status == 0 and not run.errors and said == guests and run.replies[-1:] == ["disjoint"]
    )


def count_wrong(what, runs, is_right):
    """Names each of these runs that was answered wrongly, by its number from 1 on and what it said;
    returns how many."""
    wrong = [(number, run) for number, run in enumerate(runs, 1) if not is_right(run)]
    for number, run in wrong:
        print(f"WRONG: {what} {number}: status {run.status}: {run.errors.strip()}")
    return len(wrong)


def walk_threads(proved):
    """Refuses each request of a run on threads, and each thread; returns how many were answered
    wrongly."""
    lines, words = threads_script(), ("threads",)
    whole = proved.run(lines, words=words)
    if not whole.requests:
        sys.exit(
            "refuse-memory: no request of the run on threads is counted, so none would be refused"
        )
    if not is_whole(whole):
        sys.exit("refuse-memory: the run on threads isn't whole, though nothing was refused")
    runs = [(it, proved.run(lines, it, words)) for it in range(1, whole.requests + 1)]
    short = sum(run.is_refused_at_first() for _, run in runs)
    unasked = sum(is_whole(run) and run.requests < it for it, run in runs)
    answered = sum(is_whole(run) and run.requests >= it for it, run in runs)
    print(
        f"two guests on threads: {len(runs)} requests, {THREADS} threads\n\n| Refused | Answer "
        "|\n|---|---|"
    )
    print(f"| {short} requests | status 3, `run: memory` |")
    print(
        f"| {answered} requests | all lines of a run: the runtime asked again, or a guest's call "
        f"was answered `{WANT}` |"
    )
    print(f"| none: {unasked} runs asked for fewer | all lines of a run |")
    unmade = [proved.run(lines, words=words, thread=it) for it in range(1, THREADS + 1)]
    ended = sum(it.is_refused_at_first() for it in unmade)
    print(f"| {ended} threads | status 3, `run: memory` |")
    wrong = count_wrong(
        "request", [it for _, it in runs], lambda it: it.is_refused_at_first() or is_whole(it)
    )
    return wrong + count_wrong("thread", unmade, Run.is_refused_at_first)


def what_is_left(run):
    """Returns what a run of the test says that is left; None where it didn't pass."""
    left = [it for it in run.errors.splitlines() if it in (NO_RUN, NO_REPORT, REPORT)]
    return left[0] if run.status == 0 and len(left) == 1 else None


def walk_tests(proved):
    """Refuses each request of the test of runs on threads, and each thread; returns how many were
    answered wrongly."""
    whole = proved.test()
    if not whole.requests:
        sys.exit("refuse-memory: no request of the test is counted, so none would be refused")
    if what_is_left(whole) != REPORT:
        sys.exit(
            "refuse-memory: the test of runs on threads has no report, though nothing was refused"
        )
    runs = [proved.test(refused=it) for it in range(1, whole.requests + 1)]
    unmade = [proved.test(thread=it) for it in range(1, THREADS + 1)]
    left = [what_is_left(it) for it in runs]
    ended = [what_is_left(it) for it in unmade].count(NO_REPORT)
    print(
        f"\nthe same by the tests: {len(runs)} requests, {THREADS} threads\n\n| Refused | Left "
        "|\n|---|---|"
    )
    print(f"| {left.count(NO_REPORT)} requests | `Memory`, and no frame is out |")
    print(f"| {left.count(REPORT)} requests, or none | a whole report, and no frame is out |")
    print(f"| {left.count(NO_RUN)} requests | they are the test's own, beside the run |")
    print(f"| {ended} threads | `Memory`, and no frame is out |")
    wrong = count_wrong("request of the test", runs, what_is_left)
    return wrong + count_wrong(
        "thread of the test", unmade, lambda it: what_is_left(it) == NO_REPORT
    )
