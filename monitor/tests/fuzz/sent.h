/* The messages of a client that is fuzzed, and what is wrong with some. */
#ifndef SENT_H
#define SENT_H
#include "../../backends/vhost/vhost_user.h"
#include "client.h"

enum { PAGE = 4096, OF_QUEUE = 3 * PAGE };

/* Of a write to the configuration the choices from which on it is the client's own. */
enum { OWN = 192 };

/* Kinds of files. PIPE: the end that is written; SOURCE: the other one, with a device to load;
 * FULL: a pipe without room; BROKEN: a stream whose other end is closed. */
enum { MEMORY, OTHER_MEMORY, EVENT, PIPE, SOCKET, NOTHING, LOG, SOURCE, FULL, BROKEN, KINDS };

/* Where the client's memory is in the guest. */
static const uint64_t guest_at[REGIONS] = {0x100000, 0x180000};

/* A message: its request, its body, and the kinds of its files. */
struct sent {
    uint32_t request, flags, size;
    uint8_t body[MOST_BODY + 64], kinds[MOST_FILES + 1];
    unsigned files;
};

/* Puts what a client usually sends by this request; `choice` says which of several. */
void sent_fill(struct sent *sent, unsigned queue, unsigned choice);

/* What is wrong with it: nothing, its size, a byte, its files, its flags. */
void sent_twist(struct sent *sent, unsigned how);

#endif
