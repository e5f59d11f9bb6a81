"""What guests cost on threads, for tools/measure: instructions and bytes of a call, and seconds
beside one another."""

import os
import re
import shutil
import subprocess
import sys
import tempfile

# The function in which a guest by itself is called.
CALLS_OF_A_GUEST = "vb_slot::lone::LoneSlotGuestSlot::call"

# Runs of which the least time is taken.
RUNS = 40

CLOCK = r"""
#define _GNU_SOURCE
#include <dlfcn.h>
#include <pthread.h>
#include <stdio.h>
#include <stdlib.h>
#include <sys/syscall.h>
#include <time.h>
#include <unistd.h>

enum { MOST = 64 };

static struct thread
{
    void *(*body)(void *);
    void *given;
    double end;
} threads[MOST];

static int count;
static double begin;

static double now(void)
{
    struct timespec time;
    clock_gettime(CLOCK_MONOTONIC, &time);
    return time.tv_sec + time.tv_nsec / 1e9;
}

static void *run(void *given)
{
    struct thread *own = given;
    void *result = own->body(own->given);
    own->end = now();
    return result;
}

typedef int starter(pthread_t *, const pthread_attr_t *, void *(*)(void *), void *);

int pthread_create(pthread_t *thread, const pthread_attr_t *how, void *(*body)(void *), void *given)
{
    if (count == MOST)
        abort();
    if (count == 0)
        begin = now();
    threads[count] = (struct thread){body, given, 0};
    return ((starter *)dlsym(RTLD_NEXT, "pthread_create"))(thread, how, run, &threads[count++]);
}

__attribute__((noreturn)) void _exit(int status)
{
    double end = begin;
    for (int it = 0; it < count; ++it)
        end = threads[it].end > end ? threads[it].end : end;
    dprintf(2, "%.6f\n", end - begin);
    for (;;)
        syscall(SYS_exit_group, status);
}
"""


def threads_text(guests, rounds, mode="threads"):
    """Returns the script of `guests` guests, each of which goes over four calls `rounds` times."""
    lines = [f"host {guests * 64}"] + ["spare paced"] * guests + ["plug 64 8 1"] * guests
    if mode == "run":
        lines += [f"init {guest}" for guest in range(guests)]
    for guest in range(guests):
        lines += [
            f"alloc {guest} 0 0",
            f"write {guest} 16 0 aa",
            f"read {guest} 16 0 1",
            f"free {guest} 0 16 0",
        ] * rounds
    return "".join(f"{it}\n" for it in lines).encode()


def by_thread(program, rounds):
    """Returns the instructions of each thread of one guest's run: the first one's, the worker's and
    the processor's."""
    with tempfile.TemporaryDirectory(prefix="measure-") as folder:
        kept = os.path.join(folder, "counts")
        program.instructions(
            threads_text(1, rounds), kept, ("threads",), ["--separate-threads=yes"]
        )
        counts = []
        for number in (1, 2, 3):
            with open(f"{kept}-{number:02}", encoding="utf-8") as file:
                counts.append(int(re.search(r"(?m)^totals: (\d+)", file.read())[1]))
        return counts


def print_costs(program):
    """Prints the instructions of a call, in a list of events and on threads."""
    few, many = 250, 1_250

    def of_a_call(count):
        return (count(many) - count(few)) / (4 * (many - few))

    runs = {it: by_thread(program, it) for it in (few, many)}
    first, processor = (of_a_call(lambda it: runs[it][at]) for at in (0, 2))
    silent, within = ("threads", "--bells", "drop"), [f"--toggle-collect={CALLS_OF_A_GUEST}"]
    own = of_a_call(lambda it: program.instructions(threads_text(1, it), mode=silent, more=within))
    rows = {
        "in a list of events": of_a_call(
            lambda it: program.instructions(threads_text(1, it, "run"))
        ),
        "on threads: the processor": processor,
        "of it the call itself": own,
        "of it lock, history and doorbell": processor - own,
        "the thread that reads the script and makes the report": first,
    }
    print("| One guest with one processor | instructions a call |\n|---|---|")
    for name, count in rows.items():
        print(f"| {name} | {count:,.0f} |", flush=True)


def print_bytes(program):
    """Prints the bytes by which the most memory grows with each call, in a list of events and on
    threads."""
    print("\n| One guest with one processor | bytes a call |\n|---|---|")
    for mode in ("run", "threads"):
        few, many = (program.memory(threads_text(1, it, mode), mode) for it in (2_000, 22_000))
        name = "in a list of events" if mode == "run" else "on threads"
        print(f"| the program, {name} | {(many - few) * 2**20 / 80_000:,.0f} |", flush=True)


class Clock:
    """A library that notes when the first thread of a run begins, and when the last one ends."""

    def __init__(self, folder):
        self.library = os.path.join(folder, "clock.so")
        source = os.path.join(folder, "clock.c")
        with open(source, "w", encoding="utf-8") as file:
            file.write(CLOCK)
        compiler = (
            shutil.which("cc") or shutil.which("clang") or sys.exit("measure: there is no cc")
        )
        subprocess.run(
            [compiler, "-O1", "-shared", "-fPIC", "-o", self.library, source, "-ldl"], check=True
        )

    def seconds(self, program, count, guests, bells):
        """Returns how long the threads take, from the first one's beginning to the last one's end,
        of `count` programs."""
        with tempfile.TemporaryFile() as script:
            script.write(threads_text(guests, 20_000))
            script.flush()
            words = [program.path, "threads", "--bells", bells]
            given = dict(os.environ, LD_PRELOAD=self.library)
            pipes = {"stdout": subprocess.DEVNULL, "stderr": subprocess.PIPE, "env": given}
            runs = []
            for _ in range(count):
                opened = os.open(f"/proc/self/fd/{script.fileno()}", os.O_RDONLY)
                runs.append(subprocess.Popen(words, stdin=opened, **pipes))
                os.close(opened)
            return max(float(it.communicate()[1]) for it in runs)


def print_seconds(program):
    """Prints what guests beside one another take, and as many programs with a guest each."""
    with tempfile.TemporaryDirectory(prefix="measure-") as folder:
        clock = Clock(folder)
        for bells in ("plain", "drop"):
            kinds = [(1, 1), (1, 2), (2, 1), (1, 4), (4, 1)]
            runs = [[clock.seconds(program, *it, bells) for it in kinds] for _ in range(RUNS)]
            took = {kind: min(seconds) for kind, seconds in zip(kinds, zip(*runs))}
            print(
                f"\n| Guests, bells {bells} | seconds | of one guest's | as many programs with a "
                "guest each |"
            )
            print("|---|---|---|---|")
            for guests in (1, 2, 4):
                apart = took[guests, 1]
                seconds = took[1, guests]
                print(
                    f"| {guests} | {seconds:.3f} | {seconds / took[1, 1]:.2f} | {apart:.3f} |",
                    flush=True,
                )


def print_threads(program):
    """Prints what a call costs on threads and in a list of events, and what guests beside one
    another take."""
    print_costs(program)
    print_bytes(program)
    print_seconds(program)
