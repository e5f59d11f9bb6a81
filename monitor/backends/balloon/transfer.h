/* The pipe by which a client has a device saved, or loads one, as its guest migrates: it is served
 * beside all else, a part at a time. */
#ifndef TRANSFER_H
#define TRANSFER_H
#include "moved.h"

#include <sys/types.h>

/* SAVED: all is written; READ: the pipe has ended. */
enum transfer_state {
    TRANSFER_NONE,
    TRANSFER_SAVES,
    TRANSFER_SAVED,
    TRANSFER_LOADS,
    TRANSFER_READ
};

struct transfer {
    enum transfer_state state;
    int file;            /* while it saves or loads */
    size_t length, done; /* bytes to be written, and written; or bytes that were read */
};

struct backend;

/* Whether it has its file still. */
static inline bool transfer_has_file(const struct transfer *transfer)
{
    return transfer->state == TRANSFER_SAVES || transfer->state == TRANSFER_LOADS;
}

/* Begins to write a device into a pipe or a stream, or to read one from it. Takes the file; false
 * where that can't be, which is said. */
bool transfer_save(struct backend *backend, int file);
bool transfer_load(struct backend *backend, int file);

/* Reads what has come of a device that is loaded. */
void transfer_read_on(struct backend *backend);

/* Whether what was begun has ended well: the device is saved whole, or the pipe has ended and what
 * came by it is loaded; else it is said why not. There is no transfer after that. */
bool transfer_ends(struct backend *backend);

/* Another process resumes a transfer. Where the one before has ended amid a part of it, it has
 * failed, which is said. */
void transfer_regain(struct backend *backend, const struct transfer *transfer);

/* There is no transfer any longer. */
void transfer_forget(struct backend *backend);

/* Has a loop wait for the pipe. */
struct loop;
void transfer_wait(struct backend *backend, struct loop *loop);

#endif
