#include "dirty_log.h"

#include "guest_memory.h"

#include "../base/process.h"

#include <sys/stat.h>

enum { BYTE_BITS = 8 };

/* Why these bytes of a file are no log; NULL where they may be one. */
static const char *fault_of(struct log_place place)
{
    struct stat its;
    uint64_t end;
    if (place.bytes == 0)
        return "has no bytes";
    if (__builtin_add_overflow(place.bytes, place.offset, &end) || end > INT64_MAX)
        return "ends where no file does";
    if (place.offset % BALLOON_PAGE != 0)
        return "begins within a page";
    if (!file_look(place.file, &its) || !S_ISREG(its.st_mode))
        return "is in no plain file";
    return end > (uint64_t)its.st_size ? "ends after its file" : NULL;
}

const char *dirty_log_take(struct dirty_log *log, struct log_place place)
{
    const char *fault = fault_of(place);
    uint8_t *at = fault ? NULL : file_map(place.file, place.bytes, place.offset);
    if (!at) {
        file_close(place.file);
        return fault ? fault : "can't be mapped to be written";
    }
    dirty_log_forget(log);
    *log = (struct dirty_log){.place = place, .bits = at};
    return NULL;
}

void dirty_log_forget(struct dirty_log *log)
{
    if (log->bits) {
        munmap(log->bits, log->place.bytes);
        file_close(log->place.file);
    }
    *log = (struct dirty_log){0};
}

/* The client takes bits out meanwhile. */
void dirty_log_mark(struct dirty_log *log, uint64_t guest, uint64_t length)
{
    for (uint64_t page = guest / BALLOON_PAGE; page <= (guest + length - 1) / BALLOON_PAGE; page++)
        if (page / BYTE_BITS < log->place.bytes)
            __atomic_fetch_or(&log->bits[page / BYTE_BITS], (uint8_t)(1u << page % BYTE_BITS),
                              __ATOMIC_SEQ_CST);
        else
            log->is_short = true;
}
