"""The proved program over an allocator that refuses the request, or the thread, of a number, for
tools/refuse-memory."""

import os
import shutil
import subprocess
import sys
from dataclasses import dataclass

ROOT = os.path.realpath(os.path.join(os.path.dirname(__file__), "../.."))
CRATE = os.path.join(ROOT, "crates", "vb_sim")
PROGRAM = os.path.join(CRATE, "out", "vb_sim")

# The proved tests of runs on threads, and that of an allocation failure, which says what a run
# left.
TESTS = os.path.join(ROOT, "crates", "vb_run_tests", "out", "vb_run_tests_tests")
TEST = "tests::refused::want_of_memory_leaves_no_report_or_a_whole_one"

# Seconds after which a run has no answer.
LIMIT = 20

# The reply of an event that finds no memory.
WANT = "memory"

ALLOCATOR = r"""
#define _GNU_SOURCE
#include <dlfcn.h>
#include <errno.h>
#include <fcntl.h>
#include <pthread.h>
#include <stdio.h>
#include <stdlib.h>
#include <sys/syscall.h>
#include <unistd.h>

extern void *__libc_malloc(size_t size);
extern void *__libc_realloc(void *block, size_t size);

static unsigned long requests, refused, threads, refused_thread;

__attribute__((constructor)) static void begin(void)
{
    refused = strtoul(getenv("REFUSED_REQUEST"), 0, 10);
    refused_thread = strtoul(getenv("REFUSED_THREAD"), 0, 10);
    requests = 0;
}

__attribute__((destructor)) static void note(void)
{
    char text[32];
    int length = snprintf(text, sizeof text, "%lu", requests);
    int file = open(getenv("REQUESTS_FILE"), O_WRONLY | O_CREAT | O_TRUNC, 0600);
    if (write(file, text, length) != length)
        abort();
    close(file);
}

/* By this the program ends, which calls no destructor. */
__attribute__((noreturn)) void _exit(int status)
{
    note();
    for (;;)
        syscall(SYS_exit_group, status);
}

void *malloc(size_t size)
{
    return __atomic_add_fetch(&requests, 1, __ATOMIC_RELAXED) == refused ? 0 : __libc_malloc(size);
}

void *realloc(void *block, size_t size)
{
    return __atomic_add_fetch(&requests, 1, __ATOMIC_RELAXED) == refused
               ? 0
               : __libc_realloc(block, size);
}

typedef int starter(pthread_t *, const pthread_attr_t *, void *(*)(void *), void *);

int pthread_create(pthread_t *thread, const pthread_attr_t *how, void *(*body)(void *), void *given)
{
    if (__atomic_add_fetch(&threads, 1, __ATOMIC_RELAXED) == refused_thread)
        return EAGAIN;
    return ((starter *)dlsym(RTLD_NEXT, "pthread_create"))(thread, how, body, given);
}
"""


@dataclass
class Run:
    """What a run wrote, and how it ended."""

    status: int
    replies: list
    errors: str
    requests: int

    def is_refused_at_first(self):
        """Whether it found no memory before its first event."""
        return (self.status, self.replies, self.errors) == (3, [], "run: memory\n")


class Proved:
    """The proved program over an allocator that refuses a request."""

    def __init__(self, folder):
        self.library = os.path.join(folder, "refuse.so")
        self.count = os.path.join(folder, "requests")
        source = os.path.join(folder, "refuse.c")
        with open(source, "w", encoding="utf-8") as file:
            file.write(ALLOCATOR)
        compiler = (
            shutil.which("cc") or shutil.which("clang") or sys.exit("refuse-memory: there is no cc")
        )
        subprocess.run(
            [compiler, "-O1", "-shared", "-fPIC", "-o", self.library, source, "-ldl"], check=True
        )

    def run_with(self, words, text="", refused=0, thread=0):
        """Runs a program of which the request, or the thread, of this number is refused, counted
        from 1."""
        given = {
            "LD_PRELOAD": self.library,
            "REFUSED_REQUEST": str(refused),
            "REQUESTS_FILE": self.count,
        }
        given["REFUSED_THREAD"] = str(thread)
        try:
            ran = subprocess.run(
                words, input=text, env=given, capture_output=True, text=True, timeout=LIMIT
            )
        except subprocess.TimeoutExpired:
            return Run(None, [], f"no answer after {LIMIT} seconds", refused)
        with open(self.count, encoding="utf-8") as file:
            return Run(ran.returncode, ran.stdout.splitlines(), ran.stderr, int(file.read()))

    def run(self, lines, refused=0, words=("run",), thread=0):
        """Runs a script of which the request, or the thread, of this number is refused, counted
        from 1."""
        return self.run_with([PROGRAM, *words], "".join(it + "\n" for it in lines), refused, thread)

    def test(self, refused=0, thread=0):
        """Runs the test of runs on threads so."""
        return self.run_with([TESTS, TEST], "", refused, thread)
