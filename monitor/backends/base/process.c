#include "process.h"

#include "say.h"
#include "vb.h"

#include <errno.h>
#include <fcntl.h>
#include <signal.h>
#include <stdio.h>
#include <stdlib.h>
#include <string.h>
#include <sys/auxv.h>
#include <sys/pidfd.h>
#include <sys/resource.h>
#include <sys/signalfd.h>
#include <sys/socket.h>
#include <sys/stat.h>
#include <sys/syscall.h>
#include <sys/wait.h>
#include <unistd.h>

bool process_is_shut;

/* Milliseconds of a rest. */
enum { REST = 100 };

/* Files whose closing is put off. */
enum { MOST_PUT_OFF = 128 };

/* Whether SIGHUP is for the configuration, and doesn't end the process. */
static bool hangup_reloads;

/* The signals that end the process. */
static sigset_t ending(void)
{
    sigset_t signals;
    sigemptyset(&signals);
    sigaddset(&signals, SIGTERM);
    sigaddset(&signals, SIGINT);
    if (!hangup_reloads)
        sigaddset(&signals, SIGHUP);
    return signals;
}

/* Standard output and error once more, by files that don't block; the same where they can't be
 * reopened. */
static int standard[STDERR_FILENO + 1] = {STDIN_FILENO, STDOUT_FILENO, STDERR_FILENO};

static void reopen(int file)
{
    char path[32];
    struct stat its;
    if (fstat(file, &its) || !(S_ISFIFO(its.st_mode) || S_ISCHR(its.st_mode)))
        return; /* a plain file doesn't wait, and has its place in the old one; a socket is sent
                  * to */
    snprintf(path, sizeof path, "/proc/self/fd/%d", file);
    int again = open(path, O_WRONLY | O_NONBLOCK | O_CLOEXEC | O_NOCTTY);
    standard[file] = again < 0 ? file : again;
}

int file_of_output(void)
{
    return standard[STDOUT_FILENO];
}

ssize_t file_put(int file, const void *bytes, size_t length)
{
    struct pollfd its = {standard[file], POLLOUT, 0};
    if (poll(&its, 1, 0) <= 0 || !(its.revents & (POLLOUT | POLLERR | POLLHUP)))
        return errno = EAGAIN, -1;
    ssize_t sent = send(its.fd, bytes, length, MSG_DONTWAIT | MSG_NOSIGNAL);
    return sent >= 0 || errno != ENOTSOCK ? sent : write(its.fd, bytes, length);
}

void process_begin(void)
{
    for (int file = 0; file <= STDERR_FILENO; file++)
        if (fcntl(file, F_GETFD) < 0 && open("/dev/null", O_RDWR) != file)
            abort();
    reopen(STDOUT_FILENO);
    reopen(STDERR_FILENO);
    setvbuf(stdout, NULL, _IOLBF, 0);
    signal(SIGPIPE, SIG_IGN);
    signal(SIGXFSZ, SIG_IGN); /* a file that may not be as long fails by EFBIG */
    sigset_t signals = ending();
    sigprocmask(SIG_BLOCK, &signals, NULL);
}

void process_allow_files(unsigned wanted)
{
    struct rlimit limit;
    if (getrlimit(RLIMIT_NOFILE, &limit) || limit.rlim_cur >= wanted)
        return;
    limit.rlim_cur = limit.rlim_max < wanted ? limit.rlim_max : wanted;
    if (setrlimit(RLIMIT_NOFILE, &limit) || limit.rlim_cur < wanted)
        complain("%u files may be wanted, and %llu may be open (RLIMIT_NOFILE)", wanted,
                 (unsigned long long)limit.rlim_cur);
}

bool process_await(pid_t child, int milliseconds, int *status)
{
    int file = pidfd_open(child, 0), ready = -1;
    struct pollfd its = {file, POLLIN, 0};
    while (file >= 0 && (ready = poll(&its, 1, milliseconds)) < 0 && errno == EINTR)
        continue;
    if (ready != 1) {
        kill(child, SIGKILL);
        poll(&its, 1, REST);
    }
    if (file >= 0)
        file_close(file);
    return waitpid(child, status, ready == 1 ? 0 : WNOHANG) == child;
}

int process_end(void)
{
    sigset_t signals = ending();
    int file = signalfd(-1, &signals, SFD_CLOEXEC | SFD_NONBLOCK);
    if (file < 0)
        complain("signals can't be waited for: %s", strerror(errno));
    return file;
}

int process_reload(void)
{
    sigset_t signals;
    sigemptyset(&signals);
    sigaddset(&signals, SIGHUP);
    hangup_reloads = true;
    int file = signalfd(-1, &signals, SFD_CLOEXEC | SFD_NONBLOCK);
    if (file < 0)
        complain("signals can't be waited for: %s", strerror(errno));
    return file;
}

bool process_took_reload(int file)
{
    struct signalfd_siginfo signal;
    return read(file, &signal, sizeof signal) == (ssize_t)sizeof signal;
}

int poll_some(struct pollfd *files, nfds_t count, int limit)
{
    int found = poll(files, count, limit);
    bool waited = found >= 0 || errno == EINTR;
    if (!waited) {
        complain("files can't be waited for: %s", strerror(errno));
        poll(NULL, 0, REST);
    }
    for (nfds_t i = 0; found < 0 && i < count; i++)
        files[i].revents = 0;
    return found;
}

/* The C library's call may be one that takes a path, which a process that is shut may not make. */
bool file_look(int file, struct stat *its)
{
    return syscall(SYS_fstat, file, its) == 0;
}

int file_number(int file, const char *name)
{
    char path[32], text[512];
    if (process_is_shut)
        return -1;
    snprintf(path, sizeof path, "/proc/self/fdinfo/%d", file);
    int info = open(path, O_RDONLY | O_CLOEXEC);
    ssize_t length = info < 0 ? -1 : read(info, text, sizeof text - 1);
    if (info >= 0)
        file_close(info);
    text[length > 0 ? length : 0] = 0;
    const char *at = strstr(text, name);
    return at ? atoi(at + strlen(name)) : -1;
}

/* Files that are to be closed: as many as a message lets go of at most, those of a client. */
static struct {
    int files[MOST_PUT_OFF];
    unsigned count;
    bool puts_off;
} later;

void file_close(int file)
{
    if (later.puts_off && later.count < MOST_PUT_OFF)
        later.files[later.count++] = file;
    else if (close(file))
        complain("a file can't be closed: %s", strerror(errno));
}

void files_let_go(void)
{
    for (unsigned i = 0; i < later.count; i++)
        if (close(later.files[i]))
            complain("a file can't be closed: %s", strerror(errno));
    later.count = 0;
}

void files_put_off(bool puts_off)
{
    files_let_go();
    later.puts_off = puts_off;
}

/* Its own user a process knows from its start: it may make no call for that. */
pid_t process_peer(int connection)
{
    struct ucred its = {.uid = (uid_t)-1};
    socklen_t size = sizeof its;
    getsockopt(connection, SOL_SOCKET, SO_PEERCRED, &its, &size);
    return its.uid == getauxval(AT_EUID) ? its.pid : -1;
}

int process_accept(int listener)
{
    int connection = accept4(listener, NULL, NULL, SOCK_CLOEXEC | SOCK_NONBLOCK);
    if (connection < 0 || process_peer(connection) >= 0)
        return connection;
    complain("another user isn't taken for the lender");
    file_close(connection);
    return -1;
}
