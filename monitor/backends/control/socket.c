#include "socket.h"

#include "../base/process.h"

#include <errno.h>
#include <stdio.h>
#include <string.h>
#include <sys/socket.h>
#include <sys/stat.h>
#include <sys/un.h>
#include <unistd.h>

void socket_remove(const char *path)
{
    struct stat file;
    if (!lstat(path, &file) && S_ISSOCK(file.st_mode))
        unlink(path);
}

/* Gives a socket its address. Nobody may come before it has its group and its mode. */
static bool bind_to(int listener, const struct control_options *options)
{
    struct sockaddr_un address = {.sun_family = AF_UNIX};
    strcpy(address.sun_path, options->path);
    mode_t before = umask(0777);
    int bound = bind(listener, (struct sockaddr *)&address, sizeof address);
    umask(before);
    if (bound < 0 ||
        (options->group != (gid_t)-1 && chown(options->path, (uid_t)-1, options->group)))
        return false;
    return chmod(options->path, options->mode) == 0;
}

/* The group of what this process makes beside a path, where none is said. */
static gid_t group_beside(const char *path)
{
    char folder[sizeof((struct sockaddr_un *)0)->sun_path];
    struct stat its;
    const char *end = strrchr(path, '/');
    snprintf(folder, sizeof folder, "%.*s", end ? (int)(end - path) + 1 : 1, end ? path : ".");
    return !stat(folder, &its) && its.st_mode & S_ISGID ? its.st_gid : getegid();
}

/* Whether a socket has this path. */
static bool is_at(int listener, const char *path)
{
    struct sockaddr_un its = {.sun_family = AF_UNSPEC};
    socklen_t size = sizeof its;
    return !getsockname(listener, (struct sockaddr *)&its, &size) &&
           !strncmp(its.sun_path, path, sizeof its.sun_path);
}

bool socket_is_kept(const struct control_options *options)
{
    enum { RIGHTS = 0777 };
    struct stat its;
    if (options->listener < 0 || !is_at(options->listener, options->path) ||
        lstat(options->path, &its) || !S_ISSOCK(its.st_mode))
        return false;
    bool is_own = its.st_uid == geteuid(), is_said = options->group != (gid_t)-1;
    gid_t group = is_said ? options->group : group_beside(options->path);
    return !is_own || ((its.st_mode & RIGHTS) == options->mode && its.st_gid == group);
}

int socket_listen(const struct control_options *options)
{
    if (strlen(options->path) >= sizeof((struct sockaddr_un *)0)->sun_path)
        return errno = ENAMETOOLONG, -1;
    socket_remove(options->path);
    int listener = socket(AF_UNIX, SOCK_STREAM | SOCK_CLOEXEC | SOCK_NONBLOCK, 0);
    if (listener < 0 || (bind_to(listener, options) && listen(listener, SOMAXCONN) == 0))
        return listener;
    int why = errno;
    file_close(listener);
    return errno = why, -1;
}
