/* The kernel's limits of guests whose deflates wait: raised before a guest is told that it has
 * pages, lowered after pages came. A process for each limit writes it (limit_writer.c), and nobody
 * waits for that one: what a guest was granted is told to it once it says that the limit is
  * raised. */
#include "places.h"

#include <fcntl.h>
#include <inttypes.h>
#include <signal.h>
#include <sys/socket.h>
#include <sys/wait.h>
#include <unistd.h>

/* Milliseconds until a limit that couldn't be written is tried again. */
enum { TRY_AGAIN = 500 };

const char writer_word[] = "--write-limits";
const char limit_of_another[] = "the limit is another guest's";

/* The frames that its limit is to allow: never 0, which tmpfs takes for no limit. */
static uint64_t frames_wanted(const struct seat *seat)
{
    uint64_t frames = (uint64_t)seat_lent(seat) + seat->terms.overhead;
    return frames > 0 ? frames : 1;
}

/* Whether it has a limit that is to be written now. */
static bool is_limited(const struct seat *seat)
{
    return seat->terms.limit.kind != LIMIT_NONE && seat_is_taken(seat) && seat->report.holds &&
           seat_pages(seat) > 0;
}

bool limit_holds(const struct seat *seat)
{
    return is_limited(seat) && seat->writer.allowed > 0;
}

bool limit_allows(const struct seat *seat)
{
    bool has_limit = seat->terms.limit.kind != LIMIT_NONE && seat->report.holds;
    return !has_limit || seat->writer.allowed >= frames_wanted(seat);
}

/* Becomes the writer, which nobody waits for; its words name whose it is. */
static void become_writer(int channel, int lock, const char *path)
{
    sigset_t none;
    if (fork() != 0)
        _exit(0);
    sigemptyset(&none);
    sigprocmask(SIG_SETMASK, &none, NULL);
    for (int file = STDIN_FILENO; file <= STDERR_FILENO; file++)
        dup2(channel, file);
    if (dup2(lock, LIMIT_LOCK) == lock)
        fcntl(lock, F_SETFD, 0);
    execl("/proc/self/exe", "vhost_user_host", writer_word, path, (char *)NULL);
    _exit(1);
}

/* Starts a writer; false where there can't be one, with errno. */
static bool start_writer(struct seat *seat)
{
    int pair[2], lock = folder_limit_lock(seat);
    if (lock < 0)
        return false;
    if (socketpair(AF_UNIX, SOCK_SEQPACKET | SOCK_CLOEXEC, 0, pair)) {
        int why = errno;
        file_close(lock);
        return errno = why, false;
    }
    pid_t child = fork();
    if (child == 0)
        become_writer(pair[1], lock, seat->path);
    int why = child > 0 && waitpid(child, NULL, 0) == child ? 0 : errno;
    file_close(lock);
    file_close(pair[1]);
    if (why == 0)
        return seat->writer.channel = pair[0], true;
    file_close(pair[0]);
    return errno = why, false;
}

void limit_forget(struct seat *seat)
{
    struct limit_writer *writer = &seat->writer;
    writer->allowed = writer->written = writer->asked = 0;
    writer->waits = false;
    writer->again_at = 0;
}

void limit_end(struct seat *seat)
{
    if (seat->writer.channel >= 0)
        file_close(seat->writer.channel);
    seat->writer.channel = -1;
    limit_forget(seat);
}

/* What was asked for couldn't be written: it is tried again. */
static void note_failure(struct seat *seat, const char *why)
{
    struct limit_writer *writer = &seat->writer;
    char words[MOST_LIMIT_WORDS];
    complain("its limit %s can't be set to %" PRIu64 " KiB: %s",
             limit_words(&seat->terms.limit, words), writer->asked * (BALLOON_PAGE / 1024), why);
    writer->failures++;
    writer->asked = writer->allowed = 0;
    writer->again_at = loop_now() + TRY_AGAIN;
}

/* There is no writer, or not any longer. */
static void lose_writer(struct seat *seat, const char *why)
{
    note_failure(seat, why);
    int64_t again_at = seat->writer.again_at;
    limit_end(seat);
    seat->writer.again_at = again_at;
}

/* Asks the writer for these frames. Until it has answered, no more than these are sure. */
static void ask_writer(struct seat *seat, uint64_t frames)
{
    struct limit_writer *writer = &seat->writer;
    struct limit_request request = {++writer->number, frames * BALLOON_PAGE, seat->terms.limit};
    writer->asked = frames;
    writer->allowed = frames < writer->allowed ? frames : writer->allowed;
    writer->waits = (writer->channel >= 0 || start_writer(seat)) &&
                    send(writer->channel, &request, sizeof request, MSG_DONTWAIT | MSG_NOSIGNAL) ==
                        (ssize_t)sizeof request;
    if (!writer->waits)
        lose_writer(seat, strerror(errno));
}

void limits_follow(struct host *host)
{
    for (unsigned i = 0; i < host->count; i++) {
        struct seat *seat = host->seats[i];
        if (!is_limited(seat) || seat->writer.waits)
            continue;
        uint64_t frames = frames_wanted(seat);
        if (seat->writer.asked == frames || loop_now() < seat->writer.again_at)
            continue;
        speaker_begins(&seat->speaker);
        ask_writer(seat, frames);
        speaker_ends();
    }
}

/* Takes what a writer has answered. */
static void take_outcome(struct seat *seat, const struct limit_outcome *outcome)
{
    struct limit_writer *writer = &seat->writer;
    if (outcome->number != writer->number)
        return; /* of an earlier guest or limit */
    writer->waits = false;
    if (outcome->code != 0)
        note_failure(seat, outcome->words[0] ? outcome->words : strerror(outcome->code));
    else
        writer->allowed = writer->written = writer->asked;
    seat_repeat(seat);
}

void limit_take(struct seat *seat)
{
    struct limit_outcome outcome;
    ssize_t got = recv(seat->writer.channel, &outcome, sizeof outcome, MSG_DONTWAIT);
    if (got < 0 && (errno == EAGAIN || errno == EWOULDBLOCK || errno == EINTR))
        return;
    speaker_begins(&seat->speaker);
    if (got == (ssize_t)sizeof outcome) {
        outcome.words[sizeof outcome.words - 1] = 0;
        take_outcome(seat, &outcome);
    } else {
        lose_writer(seat, "its writer has ended");
    }
    speaker_ends();
}

/* Why no guest can have the limit of these terms; NULL: one can, or they have none. */
static const char *limit_refusal(const struct guest_terms *terms)
{
    if (terms->limit.kind != LIMIT_NONE && !terms->strict)
        return "a limit is for a strict guest, whose deflates wait until it is raised";
    return limit_fault(&terms->limit);
}

/* Whether another guest has a limit. */
static bool limit_is_taken(const struct host *host, const char *name,
                           const struct guest_limit *limit)
{
    for (unsigned i = 0; i < host->count; i++) {
        const struct seat *seat = host->seats[i];
        if (limits_collide(&seat->terms.limit, limit) && strcmp(seat->name, name) != 0)
            return true;
    }
    return false;
}

const char *host_refuses_alone(const struct host *host, const char *name,
                               const struct guest_terms *terms)
{
    const struct seat *seat = seat_of(host, name);
    const char *term, *fault = terms_fault(terms, &term);
    bool needs_limit = seat && ask_read(seat, &seat->report).small;
    if (!fault && needs_limit && terms->limit.kind == LIMIT_NONE)
        fault = "its limit stays until its balloon has what it started without";
    return fault ? fault : limit_refusal(terms);
}

const char *host_refuses(const struct host *host, const char *name, const struct guest_terms *terms)
{
    const char *fault = host_refuses_alone(host, name, terms);
    bool is_taken = !fault && limit_is_taken(host, name, &terms->limit);
    return is_taken ? limit_of_another : fault;
}

void limit_leave(struct seat *seat)
{
    limit_end(seat);
    seat->terms.limit = (struct guest_limit){LIMIT_NONE, ""};
}
