/* A client's log of the pages that the device has written, as it migrates its guest: a bit for each
 * page of the guest, from page 0 on, in a file that the client reads meanwhile. */
#ifndef DIRTY_LOG_H
#define DIRTY_LOG_H
#include <stdbool.h>
#include <stdint.h>

/* Where a log is. */
struct log_place {
    uint64_t bytes, offset; /* of its file; no bytes: there is none */
    int file;
};

struct dirty_log {
    struct log_place place;
    uint8_t *bits; /* NULL: there is none */
    bool is_short; /* a page was written that it has no bit for */
};

/* Maps the bytes of a log, in place of the log before, which stays where that fails. Takes the
 * file. Returns why these are no log, after the log's name, or NULL; files are those that memory of
 * the guest may have (guest_memory.h). */
const char *dirty_log_take(struct dirty_log *log, struct log_place place);

/* There is no log any longer. */
void dirty_log_forget(struct dirty_log *log);

/* Marks the pages of these bytes of the guest, which were written. */
void dirty_log_mark(struct dirty_log *log, uint64_t guest, uint64_t length);

#endif
