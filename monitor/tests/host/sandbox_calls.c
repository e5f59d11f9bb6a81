/* Makes system calls in the sandbox of a guest's process, each in a process of its own, which has
 * the namespaces of a guest's process. Each line of the file is a number and six arguments; its
 * answer is a line with the call's name, or its number where it has none, and `passes`, or the name
 * of the call that ended the process, or `nameless`, where that is none of this architecture.
 *
 * With a second word `confined` the sandbox has no filter, and the answer's second word is
 * `passes`, or the name of the error; with `free` there is no sandbox either. */
#define _GNU_SOURCE
#include "../../backends/process/confinement.h"
#include "../../backends/process/sandbox.h"

#include <limits.h>
#include <sched.h>
#include <seccomp.h>
#include <signal.h>
#include <stdio.h>
#include <stdlib.h>
#include <string.h>
#include <errno.h>
#include <sys/mman.h>
#include <sys/wait.h>
#include <unistd.h>

enum { ARGUMENTS = 6, SECONDS = 2 };

/* Whether a call that isn't allowed is a signal, which says its number, in place of the end; and
 * that number. */
static bool traps;
static volatile int *trapped;

scmp_filter_ctx __real_seccomp_init(uint32_t action);
scmp_filter_ctx __wrap_seccomp_init(uint32_t action)
{
    return __real_seccomp_init(traps && action == SCMP_ACT_KILL_PROCESS ? SCMP_ACT_TRAP : action);
}

static void note_call(int number, siginfo_t *its, void *context)
{
    (void)number, (void)context;
    *trapped = its->si_syscall;
    _exit(1);
}

/* Whether there is no filter of calls. */
static bool is_unfiltered;

int __real_seccomp_load(const scmp_filter_ctx filter);
int __wrap_seccomp_load(const scmp_filter_ctx filter)
{
    return is_unfiltered ? 0 : __real_seccomp_load(filter);
}

/* The number of the process that begins all others, as it has it. */
static pid_t parent;

/* An argument; LONG_MIN is the number of the process that makes the call, and one more that of its
 * parent; two more is a path. */
static long itself(long argument)
{
    static const char path[] = "/";
    return argument == LONG_MIN       ? getpid()
           : argument == LONG_MIN + 1 ? parent
           : argument == LONG_MIN + 2 ? (long)path
                                      : argument;
}

static void call(long number, const long its[ARGUMENTS])
{
    if (syscall(number, itself(its[0]), itself(its[1]), its[2], its[3], its[4], its[5]) >= 0)
        errno = 0;
}

static void end(int number)
{
    (void)number;
    _exit(0);
}

/* Begins a process as that of a guest begins, with a table of files of its own. */
static pid_t begin(bool is_alone)
{
    pid_t child = confinement_fork(is_alone);
    if (child == 0 && (unshare(CLONE_FILES) || !confinement_keeps_user()))
        _exit(2);
    return child;
}

/* Makes a call in the sandbox; whether that has ended the process. One that waits ends by SIGALRM:
 * the first process of a namespace has to say so. */
static bool is_deadly(long number, const long its[ARGUMENTS])
{
    const struct sigaction action = {.sa_sigaction = note_call, .sa_flags = SA_SIGINFO};
    int status = 0;
    pid_t child = begin(true);
    if (child == 0) {
        sigaction(SIGSYS, &action, NULL);
        signal(SIGALRM, end);
        alarm(SECONDS);
        if (!sandbox_enter())
            _exit(2);
        call(number, its);
        _exit(0);
    }
    waitpid(child, &status, 0);
    return traps ? *trapped >= 0 : WIFSIGNALED(status) && WTERMSIG(status) == SIGSYS;
}

static void print_name(long number)
{
    char *name = seccomp_syscall_resolve_num_arch(SCMP_ARCH_NATIVE, (int)number);
    name ? printf("%s", name) : printf("%ld", number);
    free(name);
}

static void answer(long number, const long its[ARGUMENTS])
{
    print_name(number);
    traps = false;
    bool ends = is_deadly(number, its);
    traps = true;
    *trapped = -1;
    bool is_trapped = is_deadly(number, its);
    printf(" ");
    is_trapped ? print_name(*trapped) : (void)printf(ends ? "nameless" : "passes");
    printf("\n");
}

/* What the kernel says to a call without the filter. */
static void answer_error(long number, const long its[ARGUMENTS], bool is_confined)
{
    int status = 0;
    pid_t child = begin(is_confined);
    if (child == 0) {
        if (is_confined && !sandbox_enter())
            _exit(2);
        call(number, its);
        _exit(errno);
    }
    waitpid(child, &status, 0);
    print_name(number);
    printf(" %s\n", WEXITSTATUS(status) ? strerrorname_np(WEXITSTATUS(status)) : "passes");
}

int main(int count, char **words)
{
    long number, its[ARGUMENTS];
    FILE *lines = count > 1 ? fopen(words[1], "re") : NULL;
    is_unfiltered = count > 2;
    parent = getpid();
    trapped =
        mmap(NULL, sizeof *trapped, PROT_READ | PROT_WRITE, MAP_SHARED | MAP_ANONYMOUS, -1, 0);
    setvbuf(stdout, NULL, _IOLBF, 0);
    while (lines && fscanf(lines, "%li %li %li %li %li %li %li", &number, its, its + 1, its + 2,
                           its + 3, its + 4, its + 5) == 1 + ARGUMENTS) {
        if (is_unfiltered)
            answer_error(number, its, !strcmp(words[2], "confined"));
        else
            answer(number, its);
    }
    return lines ? 0 : 2;
}
