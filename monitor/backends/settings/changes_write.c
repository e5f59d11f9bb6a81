/* A file that is written as a whole, by a process of its own: a disk that doesn't answer holds up
 * nobody else. */
#include "changes.h"

#include "../base/process.h"

#include <errno.h>
#include <fcntl.h>
#include <signal.h>
#include <stdio.h>
#include <string.h>
#include <sys/prctl.h>
#include <sys/stat.h>
#include <sys/wait.h>
#include <unistd.h>

/* Milliseconds in which a file has to be written; bytes of a name. */
enum { WRITES_IN = 1000, MOST_FILE_NAME = 64 };

/* Writes all of a text; 0 or an errno. */
static int put(int file, const char *text)
{
    size_t left = strlen(text);
    while (left > 0) {
        ssize_t got = write(file, text, left);
        if (got < 0 && errno != EINTR)
            return errno;
        text += got > 0 ? got : 0;
        left -= got > 0 ? (size_t)got : 0;
    }
    return 0;
}

/* Writes the file beside its place, and then puts it there; 0 or an errno. The process ends with
 * that, and its files with it. */
static int write_whole(int folder, const char *name, const char *text)
{
    char part[MOST_FILE_NAME];
    snprintf(part, sizeof part, ".%s.new", name);
    if (unlinkat(folder, part, 0) && errno != ENOENT)
        return errno;
    int file = openat(folder, part, O_WRONLY | O_CREAT | O_EXCL | O_NOFOLLOW | O_CLOEXEC,
                      S_IRUSR | S_IWUSR);
    if (file < 0)
        return errno;
    int why = put(file, text);
    if (why == 0 && (fsync(file) || renameat(folder, part, folder, name) || fsync(folder)))
        why = errno;
    return why;
}

/* How the process has ended, which is killed where it takes too long; 0 or an errno. */
static int outcome(pid_t child)
{
    int status = 0;
    bool is_known = process_await(child, WRITES_IN, &status) && WIFEXITED(status);
    return is_known ? WEXITSTATUS(status) : ETIMEDOUT;
}

const char *changes_write(int folder, const char *name, const char *text)
{
    pid_t lender = getpid(), child = fork();
    if (child == 0) {
        /* It has the folder's lock, too, which the next lender waits for. */
        if (prctl(PR_SET_PDEATHSIG, SIGKILL) || getppid() != lender)
            _exit(ESRCH);
        dup2(folder, STDIN_FILENO);
        close_range(STDIN_FILENO + 1, ~0U, 0);
        _exit(write_whole(STDIN_FILENO, name, text));
    }
    int why = child < 0 ? errno : outcome(child);
    return why == 0 ? NULL : strerror(why);
}
