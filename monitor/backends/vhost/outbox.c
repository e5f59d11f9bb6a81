#include "outbox.h"

#include <fcntl.h>
#include <poll.h>
#include <unistd.h>

enum { READS, WRITES };

bool outbox_begin(struct outbox *outbox)
{
    outbox->number = 0;
    return !pipe2(outbox->ends, O_CLOEXEC | O_NONBLOCK);
}

/* The number says that the pipe was filled, and an empty pipe that it was emptied into the
  * socket. */
bool outbox_send(struct outbox *outbox, int socket, uint64_t number, const void *bytes,
                 size_t length)
{
    if (outbox->number == number)
        return true;
    if (write(outbox->ends[WRITES], bytes, length) != (ssize_t)length)
        return false;
    __atomic_store_n(&outbox->number, number, __ATOMIC_RELEASE);
    return splice(outbox->ends[READS], NULL, socket, NULL, length, SPLICE_F_NONBLOCK) ==
           (ssize_t)length;
}

void outbox_regain(struct outbox *outbox)
{
    char bytes[1024];
    struct pollfd its = {outbox->ends[READS], POLLIN, 0};
    if (poll(&its, 1, 0) <= 0 || !(its.revents & POLLIN))
        return;
    __atomic_store_n(&outbox->number, 0, __ATOMIC_RELEASE);
    while (read(outbox->ends[READS], bytes, sizeof bytes) > 0)
        continue;
}
