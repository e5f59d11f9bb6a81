/* A guest's process: how it begins, is taken over, and ends. */
#include "measures.h"
#include "places.h"

#include "../base/numbers.h"

#include <inttypes.h>
#include <limits.h>
#include <signal.h>
#include <spawn.h>
#include <sys/pidfd.h>
#include <sys/socket.h>
#include <sys/un.h>
#include <sys/wait.h>
#include <unistd.h>

extern char **environ;

/* Milliseconds without new clients, once there was no file or no process left for one; between two
 * clients of one guest. */
enum { REST = 1000, PACE = 20 };

/* Milliseconds that memory of the budget's size costs its seat beside the client, as guests make
 * room for it; and what a seat may owe. */
enum { COST_OF_BUDGET = 30000, MOST_OWED = 60000 };

/* Milliseconds in which the guests of an earlier lender tell what they have. */
enum { TOLD_IN = 5000 };

/* The lowest number of a file that is handed on, so that none is written over as they are put in
 * their places. */
enum { ABOVE_ALL = 16, FILES_HANDED = 3 };

/* Words of a guest's process with their end, and bytes of a number among them. */
enum { MOST_PROGRAM_WORDS = 20, MOST_NUMBER = 24 };

/* The words of a guest's process. */
static unsigned make_words(const struct seat *seat, char numbers[3][MOST_NUMBER],
                           const char *words[MOST_PROGRAM_WORDS])
{
    const struct host *host = seat->host;
    unsigned count = 0;
    snprintf(numbers[0], MOST_NUMBER, "%llx", (unsigned long long)host->features);
    snprintf(numbers[1], MOST_NUMBER, "%u", most_lines < MOST_SAID ? most_lines : MOST_SAID);
    snprintf(numbers[2], MOST_NUMBER, "%u", seat->terms.user);
    const char *const always[] = {host->program, "--lent",  "--features",
                                  numbers[0],    "--lines", numbers[1]};
    for (; count < sizeof always / sizeof always[0]; count++)
        words[count] = always[count];
    if (host->strict_pages)
        words[count++] = "--strict";
    if (host->events)
        words[count++] = "--events";
    if (seat->terms.strict)
        words[count++] = "--holds";
    if (host->no_sandbox)
        words[count++] = "--no-sandbox";
    if (host->end_with_lender)
        words[count++] = "--end-with-lender";
    if (seat->terms.user != ANY_USER) {
        words[count++] = "--user";
        words[count++] = numbers[2];
    }
    words[count++] = "--";
    words[count++] = seat->name;
    words[count] = NULL;
    return count;
}

/* Starts the program with these files, and no other; 0 or an errno. */
static int spawn(const struct seat *seat, const int files[FILES_HANDED], pid_t *process)
{
    char numbers[3][MOST_NUMBER];
    const char *words[MOST_PROGRAM_WORDS];
    posix_spawn_file_actions_t actions;
    posix_spawnattr_t its;
    sigset_t none;
    make_words(seat, numbers, words);
    posix_spawn_file_actions_init(&actions);
    posix_spawnattr_init(&its);
    posix_spawnattr_setflags(&its, POSIX_SPAWN_SETSID | POSIX_SPAWN_SETSIGMASK);
    posix_spawnattr_setsigmask(&its, (sigemptyset(&none), &none));
    posix_spawn_file_actions_addopen(&actions, STDIN_FILENO, "/dev/null", O_RDONLY, 0);
    posix_spawn_file_actions_addopen(&actions, STDOUT_FILENO, "/dev/null", O_WRONLY, 0);
    for (int i = 0; i < FILES_HANDED; i++)
        posix_spawn_file_actions_adddup2(&actions, files[i], CLIENT_FILE + i);
    int code = posix_spawn(process, words[0], &actions, &its, (char *const *)words, environ);
    posix_spawn_file_actions_destroy(&actions);
    posix_spawnattr_destroy(&its);
    return code;
}

/* A socket where a later lender finds the process; -1 with errno. */
static int listen_later(const char *path)
{
    struct sockaddr_un address = {.sun_family = AF_UNIX};
    int listener = socket(AF_UNIX, SOCK_SEQPACKET | SOCK_CLOEXEC | SOCK_NONBLOCK, 0);
    strcpy(address.sun_path, path);
    remove_socket(path);
    if (listener < 0 ||
        (!bind(listener, (struct sockaddr *)&address, sizeof address) && !listen(listener, 1)))
        return listener;
    int why = errno;
    file_close(listener);
    return errno = why, -1;
}

/* The files of a process that is to begin, in `handed`, and the lender's end of the channel; 0 or
 * an errno, and then there is none. */
static int open_files(struct seat *seat, int handed[FILES_HANDED])
{
    int pair[2] = {-1, -1}, later = -1, why = 0;
    if (socketpair(AF_UNIX, SOCK_SEQPACKET | SOCK_CLOEXEC | SOCK_NONBLOCK, 0, pair) ||
        !lending_names_senders(pair[0]) || (later = listen_later(seat->later_path)) < 0)
        why = errno;
    const int files[FILES_HANDED] = {seat->listener, pair[1], later};
    for (int i = 0; i < FILES_HANDED; i++) {
        handed[i] = why == 0 ? fcntl(files[i], F_DUPFD_CLOEXEC, ABOVE_ALL) : -1;
        why = why == 0 && handed[i] < 0 ? errno : why;
    }
    if (later >= 0)
        file_close(later);
    if (pair[1] >= 0)
        file_close(pair[1]);
    if (why != 0 && pair[0] >= 0)
        file_close(pair[0]);
    seat->channel = why == 0 ? pair[0] : -1;
    return why;
}

static void close_files(const int files[FILES_HANDED])
{
    for (int i = 0; i < FILES_HANDED; i++)
        if (files[i] >= 0)
            file_close(files[i]);
}

/* Its client can't be taken, and nobody's is for a while. */
static void rest(struct seat *seat, int why)
{
    complain("%s can't come: %s", seat->name, strerror(why));
    seat->host->rests_until = loop_now() + REST;
}

/* It owes these milliseconds, too, where clients cost anything. */
static void owe(struct seat *seat, int64_t cost)
{
    int64_t now = loop_now();
    if (seat->host->cost == 0)
        return;
    seat->paid_until = (seat->paid_until > now ? seat->paid_until : now) + cost;
}

void seat_pays(struct seat *seat, uint32_t pages)
{
    uint32_t frames = seat->host->frames;
    owe(seat, pages < frames ? (int64_t)pages * COST_OF_BUDGET / frames : COST_OF_BUDGET);
}

int64_t seat_has_paid(const struct seat *seat)
{
    return seat->paid_until - MOST_OWED;
}

void seat_start(struct seat *seat)
{
    int files[FILES_HANDED] = {-1, -1, -1};
    seat_clear(seat);
    seat->comes_at = loop_now() + PACE;
    owe(seat, seat->host->cost);
    int why = open_files(seat, files);
    why = why == 0 ? spawn(seat, files, &seat->process) : why;
    close_files(files);
    if (why == 0 && (seat->process_file = pidfd_open(seat->process, 0)) < 0) {
        why = errno;
        kill(seat->process, SIGKILL);
        waitpid(seat->process, NULL, 0);
    }
    if (why == 0) {
        seat->clients++;
        seat->here = true;
        seat->holds = seat->terms.strict;
        seat->heard_at = loop_now();
        return;
    }
    seat->process = 0;
    if (seat->channel >= 0)
        file_close(seat->channel);
    seat->channel = -1;
    rest(seat, why);
}

/* Leaves a socket in the folder by which a later lender knows the seat, though nobody is there. */
static void mark_seat(const struct seat *seat)
{
    int listener = listen_later(seat->later_path);
    if (listener >= 0)
        file_close(listener);
}

/* Connects to a process of the lender's user that an earlier lender has started; -1 with errno
 * where there is none, EAGAIN where as many lenders wait for it as may. */
static int connect_later(const char *path, pid_t *process)
{
    struct sockaddr_un address = {.sun_family = AF_UNIX};
    int channel = socket(AF_UNIX, SOCK_SEQPACKET | SOCK_CLOEXEC | SOCK_NONBLOCK, 0);
    strcpy(address.sun_path, path);
    if (channel < 0)
        return -1;
    bool connects = lending_names_senders(channel) &&
                    !connect(channel, (struct sockaddr *)&address, sizeof address);
    int why = connects ? EPERM : errno;
    *process = connects ? process_peer(channel) : 0;
    if (*process > 0)
        return channel;
    file_close(channel);
    return errno = why, -1;
}

bool process_is_left(const struct host *host, const char *name)
{
    char path[MOST_PATH];
    pid_t process;
    snprintf(path, sizeof path, "/proc/self/fd/%d/%s", host->channels, name);
    int channel = connect_later(path, &process);
    if (channel >= 0)
        file_close(channel);
    return channel >= 0 || errno == EAGAIN;
}

/* Reaches the process of an earlier lender; false where there is none, or where it isn't reached
 * yet. */
static bool reach(struct seat *seat)
{
    pid_t process;
    int channel = connect_later(seat->later_path, &process);
    seat->unreached = channel < 0 && errno == EAGAIN;
    if (channel < 0 && !seat->unreached && folder_moves_channel(seat))
        channel = connect_later(seat->later_path, &process);
    if (channel < 0)
        return false;
    seat->channel = channel;
    seat->process = process;
    seat->process_file = pidfd_open(process, 0);
    return true;
}

void seat_take_over(struct seat *seat)
{
    if (!reach(seat) && !seat->unreached) {
        mark_seat(seat);
        return;
    }
    seat->here = seat->adopts = true;
    seat->heard_at = loop_now();
    seat->adopts_until = loop_now() + TOLD_IN;
    seat->clients++;
    seat_look(seat, false);
}

void seat_reach(struct seat *seat)
{
    if (seat->unreached && reach(seat))
        seat_look(seat, false);
}

void seat_reserve(struct seat *seat, uint32_t pages)
{
    seat->kept_pages = pages;
    if (!seat->here)
        return;
    place_reserves(seat, pages);
    seat->reserves = true;
}

bool host_awaits(const struct host *host)
{
    for (unsigned i = 0; i < host->count; i++)
        if (host->seats[i]->adopts && loop_now() < host->seats[i]->adopts_until)
            return true;
    return false;
}

static void kill_process(const struct seat *seat)
{
    pidfd_send_signal(seat->process_file, SIGKILL, NULL, 0);
}

void seat_end_late(struct seat *seat)
{
    if (seat->leaves_until == 0 || loop_now() < seat->leaves_until)
        return;
    speaker_begins(&seat->speaker);
    complain("its process doesn't end, and is killed");
    speaker_ends();
    kill_process(seat);
    seat->leaves_until = INT64_MAX;
}

void seat_disown(struct seat *seat)
{
    seat->refused = true;
    place_uncounts(seat);
    kill_process(seat);
    file_close(seat->channel);
    seat->channel = -1;
    host_changed(seat->host, BY_GUESTS);
}

/* Says how a process ended that hasn't said itself why. */
static void explain(const struct seat *seat)
{
    int status = 0;
    if (seat->process == 0 || waitpid(seat->process, &status, WNOHANG) != seat->process)
        complain("its process has ended");
    else if (WIFSIGNALED(status) && WTERMSIG(status) == SIGSYS)
        complain("its process has ended by a system call that isn't allowed");
    else if (WIFSIGNALED(status))
        complain("its process has ended by signal %d", WTERMSIG(status));
    else
        complain("its process has ended with status %d", WEXITSTATUS(status));
}

void seat_ended(struct seat *seat)
{
    seat_read(seat, UINT_MAX);
    speaker_begins(&seat->speaker);
    if (!seat->gone) {
        explain(seat);
        seat->host->counters.gone++;
        measure_gone(seat->refused ? GONE_REFUSED : GONE_DIED);
        say_gone();
    } else {
        waitpid(seat->process, NULL, WNOHANG);
    }
    int64_t rests = seat_has_paid(seat) - loop_now();
    if (rests > PACE)
        complain("its clients come too often: the next one is taken in %" PRId64 " ms", rests);
    speaker_ends();
    host_changed(seat->host, BY_GUESTS);
    if (seat->process_file >= 0)
        file_close(seat->process_file);
    if (seat->channel >= 0)
        file_close(seat->channel);
    seat->process_file = seat->channel = -1;
    seat->process = 0;
    seat->here = false;
    seat_clear(seat);
    place_leaves(seat);
}
