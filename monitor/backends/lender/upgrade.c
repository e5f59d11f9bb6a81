/* An upgrade of the programs while guests live on: the lender becomes the program that is there
 * now, and so do guests' processes. */
#include "host.h"

#include <fcntl.h>
#include <spawn.h>
#include <sys/wait.h>
#include <unistd.h>

extern char **environ;

/* Milliseconds in which both programs say their versions: the service manager wants a word of the
 * lender before it has waited twice as long. */
enum { SAYS_IN = 4000 };

/* Why a program that is there now doesn't run; NULL: it does. It says its version until then. */
static const char *fault_of(const char *path, int64_t until)
{
    char *words[] = {(char *)path, "--version", NULL};
    posix_spawn_file_actions_t actions;
    pid_t process;
    int status;
    posix_spawn_file_actions_init(&actions);
    posix_spawn_file_actions_addopen(&actions, STDIN_FILENO, "/dev/null", O_RDONLY, 0);
    posix_spawn_file_actions_addopen(&actions, STDOUT_FILENO, "/dev/null", O_WRONLY, 0);
    posix_spawn_file_actions_addopen(&actions, STDERR_FILENO, "/dev/null", O_WRONLY, 0);
    int code = posix_spawn(&process, path, &actions, NULL, words, environ);
    posix_spawn_file_actions_destroy(&actions);
    if (code != 0)
        return strerror(code);
    int64_t left = until - loop_now();
    bool runs = process_await(process, left > 0 ? (int)left : 0, &status) && WIFEXITED(status) &&
                WEXITSTATUS(status) == 0;
    return runs ? NULL : "it doesn't say its version";
}

const char *host_upgrade(struct host *host)
{
    static char words[MOST_WORDS];
    int64_t until = loop_now() + SAYS_IN;
    const char *const programs[] = {host->itself, host->program};
    for (unsigned i = 0; i < sizeof programs / sizeof programs[0]; i++) {
        const char *fault = fault_of(programs[i], until);
        if (!fault)
            continue;
        snprintf(words, sizeof words, "%s: %s", programs[i], fault);
        return words;
    }
    host->upgrades = true;
    return NULL;
}

const char *host_renew(struct host *host, const char *name)
{
    struct seat *seat = seat_of(host, name);
    if (!seat)
        return "no guest has that name";
    if (!seat_is_taken(seat))
        return "nobody is there";
    seat_renew(seat);
    return NULL;
}
