/* Messages on a stream socket, with files beside their first bytes. */
#ifndef STREAM_H
#define STREAM_H
#include <stdbool.h>
#include <stddef.h>
#include <stdint.h>
#include <sys/socket.h>
#include <sys/uio.h>

enum { MOST_FILES = 8 };

/* What the kernel writes beside the bytes of a read. */
struct beside {
    struct msghdr header;
    _Alignas(struct cmsghdr) unsigned char control[CMSG_SPACE(MOST_FILES * sizeof(int))];
};

struct files {
    int numbers[MOST_FILES];
    unsigned count;
    bool lost;            /* more came than there is room for */
    struct beside beside; /* of the last read */
};

enum stream_state { STREAM_WRONG = -1, STREAM_GONE, STREAM_WHOLE, STREAM_WAITS };

/* Reads what has come into these parts, one after the other, and into `beside` what comes beside
 * it: WHOLE where something has, `*came` bytes. It waits for nobody. */
enum stream_state stream_some(int socket, struct iovec parts[], size_t count, struct beside *beside,
                              size_t *came);

/* Reads on until this many bytes are there, of which there are `got` already; WAITS where the rest
 * hasn't come yet. */
enum stream_state stream_fill(int socket, void *to, size_t length, size_t *got,
                              struct files *files);

/* Adds the files that came beside the last read, unless they are there already: another process may
 * have ended after it had added them. */
void files_take(struct files *files);

/* Closes the files that nobody took. */
void files_close(struct files *files);

#endif
