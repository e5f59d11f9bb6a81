/* A device that moves to another process, as its guest migrates: bytes (docs/LINUX.md, "Migration")
 * with the library's saved state and the set of the pages in the balloon. */
#ifndef MOVED_H
#define MOVED_H
#include "vb.h"

#include <stdbool.h>
#include <stddef.h>
#include <stdint.h>

/* MOVED_HEAD: bytes before the set. MOST_MOVED_PAGES: of a set, 64 GiB. */
enum {
    MOVED_VERSION = 1,
    MOVED_HEAD = 32 + VB_STATE_BYTES,
    MOVED_SUM = 8,
    MOST_MOVED_PAGES = 1 << 24,
    MOST_MOVED = MOVED_HEAD + MOST_MOVED_PAGES / 8 + MOVED_SUM
};

/* Where a device that was loaded continues. */
struct moved {
    bool awaits;         /* its queue of inflates hasn't started since */
    uint16_t index;      /* at which that continues; at another one a new driver begins */
    uint64_t memory_end; /* where the guest's memory ended */
    uint32_t actual, words;
};

/* What is large of it: the set of the pages in the balloon of a device that was loaded, and the
 * bytes of one that goes through a pipe, with one more. */
struct moved_room {
    uint64_t set[MOST_MOVED_PAGES / 64];
    uint8_t bytes[MOST_MOVED + 1];
    bool amid; /* bytes may have gone through the pipe that aren't counted yet */
};

struct backend;

/* Puts a device whose queues are stopped into bytes; how many; 0 where it can't, which is said. */
size_t moved_save(const struct backend *backend, uint8_t bytes[MOST_MOVED]);

/* Takes a device of `length` bytes: its queues go on once the client starts them. False where they
 * are none, which is said; then nothing has changed. */
bool moved_load(struct backend *backend, const uint8_t *bytes, size_t length);

/* Whether the balloon of the device that was loaded has fewer pages than there are in this one, or
 * fewer large ones, as may be. */
bool moved_takes_pages(const struct backend *backend);

/* The driver of the device that was loaded continues: its balloon is what it was. False where that
 * is another guest's, which is said. */
bool moved_begin(struct backend *backend);

#endif
