#include "keeper.h"

#include "confinement.h"
#include "lent.h"
#include "sandbox.h"

#include <fcntl.h>
#include <linux/capability.h>
#include <poll.h>
#include <signal.h>
#include <stdio.h>
#include <stdlib.h>
#include <sys/mman.h>
#include <sys/pidfd.h>
#include <sys/prctl.h>
#include <sys/resource.h>
#include <sys/socket.h>
#include <sys/syscall.h>
#include <sys/wait.h>
#include <unistd.h>

/* Where the memfd is, and from which number on files are that are to be closed after those of the
 * memory. MOST_TRIES: processes that end one after the other before they have served a turn. */
enum { KEPT_FILE = 190, HIGH_FILE = MOST_OPEN - FILES_OF_GUEST, MOST_TRIES = 3, MOST_LINE = 24 };

/* What a keeper needs for its processes to have its user where that is root (user_namespaces(7)).
 */
static const uint32_t TO_KEEP_ROOT = CAP_TO_MASK(CAP_SETFCAP);

/* The status of a process that can't keep its user in a namespace of its own. */
enum { ISNT_ITSELF = 76 };

static const char goes_on_word[] = "--goes-on";

struct keeper {
    const struct options *options;
    char **words;
    struct kept *kept;
    bool is_alone; /* its next process is to have namespaces of its own */
    bool ends;     /* a signal has told it to */
    unsigned tries;
    uint32_t turns; /* as the last process began */
};

/* Moves a file up, so that the files of the memory are closed before it as the process ends. */
static int move_up(int file, int least)
{
    int moved = fcntl(file, F_DUPFD_CLOEXEC, least);
    if (moved < 0)
        return file;
    file_close(file);
    return moved;
}

/* Maps what is kept in the memfd; NULL where it can't. One that an older program has made gets room
 * for what that doesn't know of. */
static struct kept *map(void)
{
    const off_t size = sizeof(struct kept_file);
    struct kept *kept = MAP_FAILED;
    if (lseek(KEPT_FILE, 0, SEEK_END) >= size || !ftruncate(KEPT_FILE, size))
        kept = mmap(NULL, (size_t)size, PROT_READ | PROT_WRITE, MAP_SHARED, KEPT_FILE, 0);
    if (kept == MAP_FAILED)
        return NULL;
    mlock(kept, offsetof(struct kept, set)); /* what the kernel writes into it as it reads a message
                                                has to have its place */
    return kept;
}

static struct kept *make(void)
{
    int file = memfd_create("kept", MFD_CLOEXEC);
    if (file < 0 || move_up(file, KEPT_FILE) != KEPT_FILE)
        return NULL;
    return map();
}

/* Takes the client that waits, whose bytes are counted from now on; -1 where it has gone again. */
static int accept_client(void)
{
    int count = COUNT_BEGINS,
        client = accept4(CLIENT_FILE, NULL, NULL, SOCK_CLOEXEC | SOCK_NONBLOCK);
    file_close(CLIENT_FILE);
    if (client >= 0 && setsockopt(client, SOL_SOCKET, SO_PEEK_OFF, &count, sizeof count))
        complain("bytes of a client can't be counted: %s", strerror(errno));
    return client;
}

/* Whether a client is its guest's user's, by the kernel's word; else tells the lender, and that it
 * isn't served. */
static bool is_owner(const struct keeper *keeper, int client, int lender)
{
    struct lending_message refused = {.kind = TELL_REFUSED}, gone = {.kind = TELL_GONE};
    struct ucred its = {.uid = (uid_t)-1};
    socklen_t size = sizeof its;
    char user[MOST_LINE];
    if (client < 0 || !keeper->options->user)
        return true;
    getsockopt(client, SOL_SOCKET, SO_PEERCRED, &its, &size);
    snprintf(user, sizeof user, "%u", its.uid);
    if (!strcmp(user, keeper->options->user))
        return true;
    snprintf(refused.words, MOST_WORDS, "a client of user %s, in place of user %s", user,
             keeper->options->user);
    lending_send(lender, &refused);
    lending_send(lender, &gone);
    return false;
}

/* A client has come. */
static bool take_client(struct keeper *keeper)
{
    close_range(FILES_OF_GUEST, ~0U, 0);
    keeper->kept = make();
    if (!keeper->kept)
        return false;
    kept_clear(keeper->kept);
    struct kept_state *state = &keeper->kept->states[0];
    state->notes.channel = move_up(CHANNEL_FILE, HIGH_FILE);
    state->notes.later = move_up(LATER_FILE, HIGH_FILE);
    state->notes.end = process_end();
    /* Once more: who connects is told this process's number by the kernel. */
    if (listen(state->notes.later, 1) || state->notes.end < 0 ||
        !outbox_begin(&keeper->kept->outbox))
        return false;
    state->socket = accept_client();
    return is_owner(keeper, state->socket, state->notes.channel);
}

static int compare(const void *one, const void *other)
{
    return *(const int *)one - *(const int *)other;
}

/* Closes each file that the process before had open, and that nobody names. */
static void close_others(const struct kept *kept)
{
    int files[MOST_KEPT_FILES + 1];
    unsigned count = kept_files(kept, files), next = STDERR_FILENO + 1;
    files[count++] = KEPT_FILE;
    qsort(files, count, sizeof files[0], compare);
    for (unsigned i = 0; i < count; i++) {
        if ((unsigned)files[i] > next)
            close_range(next, (unsigned)files[i] - 1, 0);
        next = (unsigned)files[i] >= next ? (unsigned)files[i] + 1 : next;
    }
    close_range(next, ~0U, 0);
}

/* Has no part of the lender's standard error any longer: what a process says goes to the lender by
 * its channel. */
static bool leave_standard_error(void)
{
    int file = open("/dev/null", O_WRONLY | O_CLOEXEC);
    bool left = file >= 0 && dup2(file, STDERR_FILENO) >= 0;
    if (file >= 0)
        file_close(file);
    return left;
}

/* The process that serves the client; it ends with its keeper, which is known by this file. */
static int serve(const struct keeper *keeper, int its)
{
    struct pollfd ended = {its, POLLIN, 0};
    if (!confinement_keeps_user())
        return ISNT_ITSELF;
    if (!keeper->options->open && !privileges_give_up(0))
        return 1;
    if (prctl(PR_SET_PDEATHSIG, SIGKILL) || poll(&ended, 1, 0) != 0)
        return 1;
    prctl(PR_SET_NAME, "balloon");
    if (!kept_regain(keeper->kept))
        return 1;
    close_others(keeper->kept);
    if (HAS_SANDBOX && !keeper->options->open && !leave_standard_error())
        return 1;
    return lent_run(keeper->options, keeper->kept);
}

/* Waits until a process has ended, and passes on signals that end one; returns its status. */
static int await(struct keeper *keeper, pid_t process)
{
    sigset_t signals;
    int status = 0;
    sigemptyset(&signals);
    sigaddset(&signals, SIGCHLD), sigaddset(&signals, SIGTERM), sigaddset(&signals, SIGINT),
        sigaddset(&signals, SIGHUP);
    while (waitpid(process, &status, WNOHANG) == 0) {
        int number = sigwaitinfo(&signals, NULL);
        if (number <= 0 || number == SIGCHLD)
            continue;
        keeper->ends = true;
        kill(process, number);
    }
    return status;
}

/* Whether the program that is there now resumes with what is kept. */
static bool suits(const struct keeper *keeper)
{
    char layout[MOST_LINE];
    int status;
    pid_t process = fork();
    snprintf(layout, sizeof layout, "%d", KEPT_LAYOUT);
    if (process == 0) {
        execl(keeper->words[0], keeper->words[0], "--layout", layout, (char *)NULL);
        _exit(1);
    }
    return process > 0 && waitpid(process, &status, 0) == process && WIFEXITED(status) &&
           WEXITSTATUS(status) == 0;
}

/* Becomes the program that is there now, with the files that are kept; comes back where it
  * can't. */
static void become(const struct keeper *keeper)
{
    int files[MOST_KEPT_FILES + 1];
    char *words[MOST_LINE] = {keeper->words[0], (char *)goes_on_word};
    unsigned count = kept_files(keeper->kept, files), next = 2;
    files[count++] = KEPT_FILE;
    for (char **word = keeper->words + 1; *word && next < MOST_LINE - 1; word++)
        if (strcmp(*word, goes_on_word) != 0)
            words[next++] = *word;
    for (unsigned i = 0; i < count; i++)
        fcntl(files[i], F_SETFD, 0);
    execv(words[0], words);
    for (unsigned i = 0; i < count; i++)
        fcntl(files[i], F_SETFD, FD_CLOEXEC);
}

/* Whether another process takes over where one has ended by this status. */
static bool goes_on(struct keeper *keeper, int status)
{
    struct kept *kept = keeper->kept;
    if (keeper->is_alone && WIFEXITED(status) && WEXITSTATUS(status) == ISNT_ITSELF) {
        keeper->is_alone = false;
        return true;
    }
    keeper->tries = kept->turns == keeper->turns ? keeper->tries + 1 : 0;
    keeper->turns = kept->turns;
    kept->ended_by = WIFSIGNALED(status) ? (uint32_t)WTERMSIG(status) : 0;
    kept->unnoted = kept_unnoted(kept);
    kept_count_anew(kept);
    if (WIFEXITED(status) && WEXITSTATUS(status) == ENDS_ANEW && !keeper->ends) {
        if (kept->renews && suits(keeper))
            become(keeper);
        kept->stays = kept->renews;
        kept->renews = false;
        return true;
    }
    return WIFSIGNALED(status) && WTERMSIG(status) != SIGSYS && !keeper->ends &&
           keeper->tries < MOST_TRIES;
}

/* Ends as the process has ended that served the client. */
static int end_as(int status)
{
    if (WIFEXITED(status))
        return WEXITSTATUS(status);
    setrlimit(RLIMIT_CORE, &(struct rlimit){0, 0});
    signal(WTERMSIG(status), SIG_DFL);
    raise(WTERMSIG(status));
    return 1;
}

static bool begin(struct keeper *keeper)
{
    pid_t lender = getppid();
    sigset_t ends;
    if (keeper->options->ends_with_lender &&
        (prctl(PR_SET_PDEATHSIG, SIGTERM) || getppid() != lender))
        return false;
    process_allow_files(MOST_OPEN);
    sigemptyset(&ends), sigaddset(&ends, SIGCHLD);
    if (sigprocmask(SIG_BLOCK, &ends, NULL) ||
        (!keeper->options->open && !privileges_give_up(TO_KEEP_ROOT)))
        return false;
    if (!keeper->options->goes_on)
        return take_client(keeper);
    keeper->kept = map();
    if (keeper->kept)
        keeper->kept->renews = keeper->kept->stays = false;
    return keeper->kept && keeper->kept->layout == KEPT_LAYOUT &&
           keeper->kept->bytes == sizeof *keeper->kept;
}

int keeper_run(const struct options *options, char **words)
{
    struct keeper keeper = {
        .options = options, .words = words, .is_alone = HAS_SANDBOX && !options->open};
    if (!begin(&keeper))
        return 1;
    prctl(PR_SET_NAME, "balloon_keeper");
    keeper.turns = keeper.kept->turns;
    for (;;) {
        int its = pidfd_open(getpid(), 0);
        pid_t process = confinement_fork(keeper.is_alone);
        if (process == 0)
            return serve(&keeper, its);
        int status = process > 0 ? await(&keeper, process) : 1 << 8;
        if (!goes_on(&keeper, status))
            return end_as(status);
    }
}
