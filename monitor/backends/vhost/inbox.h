/* Messages of a client that nobody waits for: they are put together as their bytes come. A head is
 * read together with the bytes with which most bodies begin. Where its message has no body, those
 * are the first bytes of the next one's head, and wait in the inbox. */
#ifndef INBOX_H
#define INBOX_H
#include "vhost_user.h"

/* The shortest body that a message has, unless it has none. */
enum { LEAST_BODY = 8 };

struct inbox {
    struct message message; /* the next one: whole once inbox_read has said so */
    uint32_t head[3];
    uint32_t ahead;       /* once the head is whole: bytes of the next one that were read with it,
                             which are in `body`; 0.3.0 has a gap of zeros here */
    size_t got, got_body; /* bytes of its head, and of its body */
    uint64_t number;      /* how many there were before */
};

/* Reads what has come of a message on a socket that doesn't block. A whole one is in `message`
 * then; WRONG where the bytes are none. */
enum stream_state inbox_read(int socket, struct inbox *inbox);

/* Reads by one call, and notes nothing of it: `*came` bytes. As stream_some. */
enum stream_state inbox_take(int socket, struct inbox *inbox, size_t *came);

/* The message was served: the next one comes. */
void inbox_next(struct inbox *inbox);

/* This many bytes, and the files beside them, have come by a read that nobody has looked at. False
 * where no message has as many. */
bool inbox_regain(struct inbox *inbox, uint64_t length);

/* How many bytes the message has that is whole; how many were read; and whether it is whole. */
size_t inbox_length(const struct inbox *inbox);
size_t inbox_bytes(const struct inbox *inbox);
bool inbox_is_whole(const struct inbox *inbox);

/* The files that came with bytes of the message after this one. */
struct files inbox_files_ahead(const struct inbox *inbox);

/* Closes all files that nobody took. */
void inbox_close(struct inbox *inbox);

#endif
