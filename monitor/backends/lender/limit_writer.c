/* The process that writes one guest's limit. The kernel may have it wait: for pages that it takes
 * from the cgroup first, or for others that mount; nobody but this guest waits with it. */
#include "limit.h"

#include <errno.h>
#include <fcntl.h>
#include <inttypes.h>
#include <stdio.h>
#include <string.h>
#include <sys/file.h>
#include <sys/mount.h>
#include <sys/socket.h>
#include <unistd.h>

/* Opens the file of a cgroup's limit: of the second version, or of the first one; -1 with errno. */
static int open_limit(const char *path)
{
    char name[MOST_LIMIT_WORDS + 32];
    snprintf(name, sizeof name, "%s/memory.max", path);
    int file = open(name, O_WRONLY | O_CLOEXEC | O_NOFOLLOW);
    if (file >= 0 || errno != ENOENT)
        return file;
    snprintf(name, sizeof name, "%s/memory.limit_in_bytes", path);
    return open(name, O_WRONLY | O_CLOEXEC | O_NOFOLLOW);
}

/* 0 or an errno. */
static int write_cgroup(const char *path, const char *bytes)
{
    int file = open_limit(path);
    if (file < 0)
        return errno;
    int code = write(file, bytes, strlen(bytes)) == (ssize_t)strlen(bytes) ? 0 : errno;
    close(file);
    return code;
}

/* What the kernel says of a mount that it refuses: one line, after a letter and a space. */
static void read_words(int mount, char *words, size_t room)
{
    ssize_t length = read(mount, words, room - 1);
    words[length > 0 ? length : 0] = 0;
    words[strcspn(words, "\n")] = 0;
    if (length > 2)
        memmove(words, words + 2, strlen(words + 2) + 1);
}

/* Sets the size of a mount, and leaves all its other options; 0 or an errno. */
static int write_tmpfs(const char *path, const char *bytes, char *words, size_t room)
{
    int mount = fspick(AT_FDCWD, path, FSPICK_CLOEXEC);
    if (mount < 0)
        return errno;
    int code = fsconfig(mount, FSCONFIG_SET_STRING, "size", bytes, 0) ||
                       fsconfig(mount, FSCONFIG_CMD_RECONFIGURE, NULL, NULL, 0)
                   ? errno
                   : 0;
    if (code != 0)
        read_words(mount, words, room);
    close(mount);
    return code;
}

static void serve(const struct limit_request *request, struct limit_outcome *outcome)
{
    char bytes[24];
    *outcome = (struct limit_outcome){.number = request->number};
    snprintf(bytes, sizeof bytes, "%" PRIu64, request->bytes);
    if (request->limit.kind == LIMIT_CGROUP)
        outcome->code = write_cgroup(request->limit.path, bytes);
    else
        outcome->code =
            write_tmpfs(request->limit.path, bytes, outcome->words, sizeof outcome->words);
}

int limit_writer_run(int channel)
{
    struct limit_request request;
    struct limit_outcome outcome;
    while (flock(LIMIT_LOCK, LOCK_EX))
        if (errno != EINTR)
            return 1;
    for (ssize_t got; (got = recv(channel, &request, sizeof request, 0)) != 0;) {
        if (got < 0 && errno == EINTR)
            continue;
        if (got != (ssize_t)sizeof request)
            return 1;
        serve(&request, &outcome);
        if (send(channel, &outcome, sizeof outcome, MSG_NOSIGNAL) != (ssize_t)sizeof outcome)
            return 1;
    }
    return 0;
}
