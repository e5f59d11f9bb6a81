#include "confinement.h"

#include "../base/say.h"

#include <errno.h>
#include <fcntl.h>
#include <sched.h>
#include <signal.h>
#include <stdint.h>
#include <stdio.h>
#include <stdlib.h>
#include <string.h>
#include <sys/auxv.h>
#include <sys/resource.h>
#include <sys/syscall.h>
#include <unistd.h>

/* Bytes of its own memory that a process may have; the guest's is shared. Scores by which the
 * kernel chooses whom to kill: how far above the lender's, and the most there is. */
enum { MOST_DATA = 64 << 20, SCORES_ABOVE = 100, MOST_SCORE = 1000, MOST_DIGITS = 16 };

/* Words of the map of users; the process that is the first of its namespace; the user as whom the
 * kernel shows each that has no place in the map. */
enum { MOST_MAP = 32, FIRST_PROCESS = 1, UNMAPPED_USER = 65534 };

/* What Landlock has of rights, as its header has in later versions alone (landlock(7)): with each
 * version, as its first one, all rights of files, of TCP, and of whom it reaches outside. */
enum {
    ASKS_VERSION = 1,
    FIRST_WITH_TCP = 4,
    FIRST_WITH_SCOPES = 6,
    ALL_OF_TCP = 3,
    ALL_SCOPES = 3
};

struct ruleset {
    uint64_t files, network, scopes;
};

static uint64_t rights_of_files(long version)
{
    static const uint64_t rights[] = {0, 0x1FFF, 0x3FFF, 0x7FFF, 0x7FFF, 0xFFFF};
    long last = sizeof rights / sizeof rights[0] - 1;
    return rights[version < last ? version : last];
}

/* Takes each right that this kernel knows, and grants none. */
static bool take_rights(void)
{
    long version = syscall(SYS_landlock_create_ruleset, NULL, 0, ASKS_VERSION);
    if (version < 1)
        return false;
    const struct ruleset none = {rights_of_files(version),
                                 version < FIRST_WITH_TCP ? 0 : ALL_OF_TCP,
                                 version < FIRST_WITH_SCOPES ? 0 : ALL_SCOPES};
    int file = (int)syscall(SYS_landlock_create_ruleset, &none, sizeof none, 0);
    if (file < 0)
        return false;
    bool taken = syscall(SYS_landlock_restrict_self, file, 0) == 0;
    close(file);
    return taken;
}

pid_t confinement_fork(bool is_alone)
{
    static const unsigned long shared = CLONE_FILES | SIGCHLD;
    pid_t process = -1;
    if (is_alone && geteuid() != UNMAPPED_USER)
        process = (pid_t)syscall(SYS_clone, shared | CLONE_NEWUSER | CLONE_NEWPID, NULL, NULL, NULL,
                                 NULL);
    return process >= 0 ? process : (pid_t)syscall(SYS_clone, shared, NULL, NULL, NULL, NULL);
}

bool confinement_keeps_user(void)
{
    char map[MOST_MAP];
    unsigned user = (unsigned)getauxval(AT_EUID);
    int length = snprintf(map, sizeof map, "%u %u 1", user, user);
    if (getpid() != FIRST_PROCESS)
        return true;
    int file = open("/proc/self/uid_map", O_WRONLY | O_CLOEXEC);
    bool kept = file >= 0 && write(file, map, (size_t)length) == length;
    if (file >= 0)
        close(file);
    return kept;
}

/* A lender that has more of the processors than others has it for itself. */
static void yield_processor(void)
{
    if (getpriority(PRIO_PROCESS, 0) < 0 && setpriority(PRIO_PROCESS, 0, 0))
        complain("its process has as much of the processors as its lender: %s", strerror(errno));
}

/* Is killed before its lender. */
static void yield_memory(void)
{
    char digits[MOST_DIGITS] = "";
    int file = open("/proc/self/oom_score_adj", O_RDWR | O_CLOEXEC);
    bool yields = file >= 0 && read(file, digits, sizeof digits - 1) > 0;
    int score = atoi(digits) + SCORES_ABOVE;
    score = score < 0 ? 0 : score > MOST_SCORE ? MOST_SCORE : score;
    if (!yields || pwrite(file, digits, (size_t)sprintf(digits, "%d", score), 0) < 0)
        complain("its process isn't killed before its lender: %s", strerror(errno));
    if (file >= 0)
        close(file);
}

void confinement_enter(void)
{
    static const struct {
        int resource;
        rlim_t most;
        const char *what;
    } limits[] = {{RLIMIT_DATA, MOST_DATA, "its own memory"},
                  {RLIMIT_NOFILE, MOST_OPEN, "its open files"},
                  {RLIMIT_NPROC, 0, "its children"}};
    yield_memory();
    yield_processor();
    if (getpid() != FIRST_PROCESS)
        complain("the kernel gives its process no namespaces of its own");
    for (unsigned i = 0; i < sizeof limits / sizeof limits[0]; i++)
        if (setrlimit(limits[i].resource, &(struct rlimit){limits[i].most, limits[i].most}))
            complain("%s can't be limited: %s", limits[i].what, strerror(errno));
    if (!take_rights())
        complain("the kernel doesn't keep its process from paths and signals (Landlock): %s",
                 strerror(errno));
}
