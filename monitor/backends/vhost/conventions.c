#include "conventions.h"

#include "../balloon/backend.h"

#include <fcntl.h>
#include <limits.h>
#include <sys/socket.h>

bool socket_listens(int file)
{
    int listens = 0;
    socklen_t size = sizeof listens;
    return !getsockopt(file, SOL_SOCKET, SO_ACCEPTCONN, &listens, &size) && listens;
}

bool read_socket(const char *word, void *at)
{
    uint64_t number;
    int *file = at, type;
    socklen_t size = sizeof type;
    if (*file >= 0 || !read_number(word, 10, INT_MAX, &number) ||
        getsockopt((int)number, SOL_SOCKET, SO_TYPE, &type, &size) || type != SOCK_STREAM)
        return false;
    *file = (int)number;
    int flags = fcntl(*file, F_GETFL);
    return flags >= 0 && fcntl(*file, F_SETFL, flags | O_NONBLOCK) == 0 &&
           fcntl(*file, F_SETFD, FD_CLOEXEC) == 0;
}
