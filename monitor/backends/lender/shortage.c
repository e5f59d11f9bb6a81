/* A shortage that lasts: since when the guests can't give what is missing, and the command of the
 * operator's that is run for it once. A process of its own runs the command and waits for its end:
 * nobody waits for that one, and a later lender's begins no other before. */
#include "places.h"

#include <fcntl.h>
#include <inttypes.h>
#include <signal.h>
#include <spawn.h>
#include <stdlib.h>
#include <sys/file.h>
#include <sys/wait.h>
#include <unistd.h>

/* The files of that process: it tells by standard input how the command has ended, and has a lock
 * until then. */
enum { OUTCOME_FILE = STDIN_FILENO, LOCK_FILE = STDERR_FILENO + 1 };

enum { MOST_NUMBER = 24, MOST_STATUS = 64, MILLISECONDS = 1000 };

/* How a command has ended: an errno, or the kernel's status. */
struct command_end {
    int32_t code, status;
};

/* The guest of the lowest priority, and of these the one to which most is lent; NULL where no guest
 * has memory. */
static const struct seat *lowest(const struct host *host)
{
    const struct seat *found = NULL;
    for (unsigned i = 0; i < host->count; i++) {
        const struct seat *seat = host->seats[i];
        if (!seat_is_taken(seat) || seat_pages(seat) == 0)
            continue;
        uint32_t priority = seat->terms.priority;
        bool is_lower =
            found && (priority < found->terms.priority ||
                      (priority == found->terms.priority && seat_lent(seat) > seat_lent(found)));
        found = !found || is_lower ? seat : found;
    }
    return found;
}

/* Runs the command, with this environment alone; how it has ended. */
static struct command_end await(char *const words[], char *const environment[])
{
    struct command_end end = {flock(LOCK_FILE, LOCK_EX | LOCK_NB) ? errno : 0, 0};
    posix_spawn_file_actions_t actions;
    posix_spawnattr_t its;
    sigset_t all;
    pid_t process;
    posix_spawn_file_actions_init(&actions);
    posix_spawn_file_actions_addopen(&actions, STDIN_FILENO, "/dev/null", O_RDONLY, 0);
    posix_spawnattr_init(&its);
    posix_spawnattr_setflags(&its, POSIX_SPAWN_SETSIGDEF);
    posix_spawnattr_setsigdefault(&its, (sigfillset(&all), &all));
    if (end.code == 0)
        end.code = posix_spawn(&process, words[0], &actions, &its, words, environment);
    if (end.code == 0 && waitpid(process, &end.status, 0) != process)
        end.code = errno;
    return end;
}

/* Writes pages in MiB, as many as they need. */
static void print_mib(char *words, size_t room, const char *before, uint64_t pages)
{
    snprintf(words, room, "%s%" PRIu64, before, (pages + PAGES_PER_MIB - 1) / PAGES_PER_MIB);
}

/* Becomes the process that runs the command, with no other files than its own. */
static void become_runner(const struct host *host, int channel, int lock)
{
    char number[MOST_NUMBER], path[4096], wanted[MOST_STATUS], least[MOST_STATUS];
    const char *found = getenv("PATH");
    const struct shortage *its = &host->shortage;
    char *words[] = {(char *)host->on_short, (char *)its->guest, number, NULL};
    char *environment[] = {path, wanted, least, NULL};
    sigset_t none;
    if (fork() != 0)
        _exit(0);
    setsid();
    sigemptyset(&none);
    sigprocmask(SIG_SETMASK, &none, NULL);
    print_mib(number, sizeof number, "", its->missing);
    print_mib(wanted, sizeof wanted, "WANTED=", its->demand.wanted);
    print_mib(least, sizeof least, "LEAST_BUDGET=", its->demand.least_budget);
    snprintf(path, sizeof path, "PATH=%s", found ? found : "/usr/bin:/bin");
    dup2(channel, OUTCOME_FILE);
    dup2(STDERR_FILENO, STDOUT_FILENO);
    dup2(lock, LOCK_FILE);
    fcntl(LOCK_FILE, F_SETFD, FD_CLOEXEC);
    close_range(LOCK_FILE + 1, ~0U, 0);
    struct command_end end = await(words, environment);
    _exit(write(OUTCOME_FILE, &end, sizeof end) != (ssize_t)sizeof end);
}

static void note_failure(struct host *host, const char *why)
{
    host->counters.command_failures++;
    complain("on-short: %s: %s", host->on_short, why);
}

/* Begins the command; nobody waits for it. */
static void begin(struct host *host)
{
    int ends[2] = {-1, -1}, lock = openat(host->channels, ".", O_RDONLY | O_DIRECTORY | O_CLOEXEC);
    pid_t child = lock < 0 || pipe2(ends, O_CLOEXEC) ? -1 : fork();
    if (child == 0)
        become_runner(host, ends[1], lock);
    int why = child > 0 && waitpid(child, NULL, 0) == child ? 0 : errno;
    if (lock >= 0)
        file_close(lock);
    if (ends[1] >= 0)
        file_close(ends[1]);
    host->shortage.command = ends[0];
    if (why != 0)
        note_failure(host, strerror(why));
}

/* How a command has ended, by the kernel's status. */
static const char *status_words(int status, char words[MOST_STATUS])
{
    bool exits = WIFEXITED(status);
    snprintf(words, MOST_STATUS, "it has ended with %s %d", exits ? "status" : "signal",
             exits ? WEXITSTATUS(status) : WTERMSIG(status));
    return words;
}

int shortage_take_end(void *context, int file)
{
    struct host *host = context;
    struct shortage *shortage = &host->shortage;
    struct command_end end = {0, 0};
    char words[MOST_STATUS];
    bool told = read(file, &end, sizeof end) == (ssize_t)sizeof end;
    file_close(file);
    shortage->command = -1;
    if (told && end.code == EWOULDBLOCK) /* that of an earlier lender runs yet */
        shortage->is_due = shortage->lasts;
    else if (!told || end.code != 0)
        note_failure(host, told ? strerror(end.code) : "nobody tells how it has ended");
    else if (end.status != 0)
        note_failure(host, status_words(end.status, words));
    return LOOP_GOES_ON;
}

/* It has lasted for as long as the host is patient. */
static void note_shortage(struct host *host)
{
    struct shortage *shortage = &host->shortage;
    const struct seat *seat = lowest(host);
    shortage->lasts = true;
    shortage->is_due = host->on_short && *host->on_short;
    shortage->missing = host->missing;
    shortage->demand = policy_demand(host);
    snprintf(shortage->guest, sizeof shortage->guest, "%s", seat ? seat->name : "");
    host->counters.shortages++;
}

void shortage_look(struct host *host)
{
    struct shortage *shortage = &host->shortage;
    if (host->missing == 0) {
        shortage->since = 0;
        shortage->lasts = shortage->is_due = false;
        return;
    }
    if (shortage->since == 0)
        shortage->since = loop_now();
    if (!shortage->lasts && loop_now() - shortage->since >= (int64_t)host->patience * MILLISECONDS)
        note_shortage(host);
    if (!shortage->is_due || shortage->command >= 0)
        return;
    shortage->is_due = false;
    begin(host);
}
