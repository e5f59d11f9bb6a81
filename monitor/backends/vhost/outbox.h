/* Answers that a client gets once, whatever process sends them: an answer goes by way of a pipe,
 * out of which the kernel takes it as it puts it into the client's socket. So another process finds
 * out whether the one before had sent it. */
#ifndef OUTBOX_H
#define OUTBOX_H
#include <stdbool.h>
#include <stddef.h>
#include <stdint.h>

struct outbox {
    int ends[2];     /* of the pipe: where it is read, and where it is written */
    uint64_t number; /* of the last answer that is in the pipe, or has left it; 0: none */
};

/* Makes the pipe; false where it can't, with errno. */
bool outbox_begin(struct outbox *outbox);

/* Sends the answer of this number, unless it was sent already; false where the client doesn't take
 * it at once. Numbers grow. */
bool outbox_send(struct outbox *outbox, int socket, uint64_t number, const void *bytes,
                 size_t length);

/* Forgets an answer that an earlier process hasn't sent: it is in the pipe still. */
void outbox_regain(struct outbox *outbox);

#endif
