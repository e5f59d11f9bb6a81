#include "events.h"

#include "../base/process.h"
#include "../base/say.h"

#include <errno.h>
#include <fcntl.h>
#include <poll.h>
#include <signal.h>
#include <stdint.h>
#include <string.h>
#include <sys/socket.h>
#include <sys/stat.h>
#include <sys/time.h>
#include <sys/uio.h>
#include <unistd.h>

/* Microseconds after which a call is broken off that was to come back at once. TRIES: a look at an
 * eventfd is made again where somebody else has read it meanwhile. */
enum { MOMENT = 1000, TRIES = 4 };

void event_close(struct event *event)
{
    if (event->file >= 0)
        file_close(event->file);
    *event = NO_EVENT;
}

bool is_stream(int file)
{
    int family = 0, type = 0;
    socklen_t size = sizeof family;
    return !getsockopt(file, SOL_SOCKET, SO_DOMAIN, &family, &size) && family == AF_UNIX &&
           !getsockopt(file, SOL_SOCKET, SO_TYPE, &type, &size) && type == SOCK_STREAM;
}

static bool is_pipe(int file)
{
    struct stat its;
    return file_look(file, &its) && S_ISFIFO(its.st_mode);
}

/* Whether a call that was refused would have had to wait. */
static bool would_wait(void)
{
    return errno == EAGAIN || errno == EWOULDBLOCK || errno == EINTR;
}

static void break_off(int number)
{
    (void)number;
}

/* Breaks off whatever waits from now on, again and again, until `moment_ends`: by a signal. False
 * where it can't. */
static bool moment_begins(void)
{
    static const struct itimerval soon = {{0, MOMENT}, {0, MOMENT}};
    static bool prepared;
    struct sigaction action = {.sa_handler = break_off};
    if (!prepared)
        prepared = sigaction(SIGALRM, &action, NULL) == 0;
    return prepared && setitimer(ITIMER_REAL, &soon, NULL) == 0;
}

static void moment_ends(void)
{
    static const struct itimerval never;
    if (setitimer(ITIMER_REAL, &never, NULL))
        complain("a timer doesn't end: %s", strerror(errno));
}

/* Writes a number without waiting, whatever the other end has made of the file's flags, or writes
 * meanwhile: 1; 0 where there is no room; -1 at a fault. */
static int write_now(int file, uint64_t number)
{
    if (!moment_begins())
        return -1;
    ssize_t put = write(file, &number, sizeof number);
    int outcome = put > 0 ? 1 : would_wait() ? 0 : -1;
    moment_ends();
    return outcome;
}

/* Reads an eventfd without waiting, whatever the other end has made of its flags, or reads
 * meanwhile: 1; 0 where there is nothing; -1 at a fault. */
static int read_now(int file, uint64_t *number)
{
    struct iovec part = {number, sizeof *number};
    ssize_t got = preadv2(file, &part, 1, -1, RWF_NOWAIT);
    return got > 0 ? 1 : would_wait() ? 0 : -1;
}

/* Whether a file is an eventfd: one of no sort, which takes a number that changes nothing. */
static bool is_eventfd(int file)
{
    struct stat its;
    return file_look(file, &its) && (its.st_mode & S_IFMT) == 0 && write_now(file, 0) > 0;
}

/* Whether a read of an eventfd takes all that was told, and not one of it: it has two more when it
 * is read, and gets back what it had. */
static bool reads_all(int file)
{
    for (unsigned i = 0; i < TRIES; i++) {
        uint64_t number, more = write_now(file, 2) > 0 ? 2 : 0;
        int got = read_now(file, &number);
        if (got < 0 || (got > 0 && number < 2))
            return false;
        if (got > 0)
            return number == more || write_now(file, number - more) >= 0;
    }
    return false;
}

/* Whether an eventfd has nothing more to read once it was read. Before Linux 6.5 only a trial shows
 * it. */
static bool comes_to_rest(int file)
{
    int semaphore = file_number(file, "eventfd-semaphore:");
    return semaphore < 0 ? reads_all(file) : semaphore == 0;
}

/* Takes a file that doesn't block, in place of the one before. */
static bool take(struct event *event, int file, bool known)
{
    event_close(event);
    if (!known) {
        file_close(file);
        return false;
    }
    *event = (struct event){file, is_stream(file)};
    return true;
}

/* Whether a file doesn't block any longer. */
static bool unblock(int file)
{
    int flags = fcntl(file, F_GETFL);
    return flags >= 0 && fcntl(file, F_SETFL, flags | O_NONBLOCK) == 0;
}

bool event_take_kick(struct event *event, int file)
{
    return take(event, file, is_eventfd(file) && unblock(file) && comes_to_rest(file));
}

bool event_take_call(struct event *event, int file)
{
    return take(event, file,
                (is_eventfd(file) || is_pipe(file) || is_stream(file)) && unblock(file));
}

bool pipe_take(int file)
{
    return (is_pipe(file) || is_stream(file)) && unblock(file);
}

ssize_t pipe_write(int file, const void *bytes, size_t length)
{
    if (!moment_begins())
        return -1;
    ssize_t put = write(file, bytes, length);
    ssize_t outcome = put < 0 && would_wait() ? 0 : put;
    moment_ends();
    return outcome;
}

ssize_t pipe_read(int file, void *to, size_t length, bool *ended)
{
    if (!moment_begins())
        return -1;
    ssize_t got = read(file, to, length);
    ssize_t outcome = got < 0 && would_wait() ? 0 : got;
    moment_ends();
    *ended = got == 0 && length > 0;
    return outcome;
}

int event_read(const struct event *event)
{
    uint64_t number;
    return read_now(event->file, &number);
}

bool event_signal(const struct event *event)
{
    uint64_t one = 1;
    if (event->is_socket)
        return send(event->file, &one, sizeof one, MSG_DONTWAIT | MSG_NOSIGNAL) > 0 || would_wait();
    return write_now(event->file, one) >= 0;
}
