/* Backends that are wrong about a guest that migrates, each as BACKEND_WRONG names it:
 *
 *     log-empty         a log of no bytes is taken
 *     log-nowhere       a log is taken that ends where no file does
 *     log-short         a log is mapped beyond the end of its file
 *     log-unsealed      the file of a log can be cut off
 *     log-old           a log in whose place another one comes stays
 *     logs-nothing      nothing is marked in a log
 *     log-misses        a page that a log has no bit for isn't missed
 *     log-kills         a log's file that is cut off ends the process by a signal
 *     pipe-waits        a pipe is waited for that its client has made blocking again
 *     any-state         a state is taken whatever its sum
 *     forgets-refused   a state that is refused leaves an empty device
 *     any-memory        a device continues over a guest's memory of another size
 *     index-0           a driver whose queue continues at index 0 counts as a new one
 *     keeps-sent        pages in a balloon that were sent before aren't given up
 */
#include "../../backends/balloon/backend.h"
#include "../../backends/balloon/dirty_log.h"
#include "../../backends/balloon/guard.h"
#include "../../backends/balloon/guest_memory.h"
#include "../../backends/base/process.h"
#include "../../backends/balloon/state.h"

#include <stdlib.h>
#include <unistd.h>

static bool is(const char *name)
{
    const char *wrong = getenv("BACKEND_WRONG");
    return wrong && !strcmp(wrong, name);
}

/* Declares the right function and the one in its place. */
#define WRAPPED(type, name, ...)                                                                   \
    type __real_##name(__VA_ARGS__);                                                               \
    type __wrap_##name(__VA_ARGS__)

static uint8_t *map_bluntly(int file, uint64_t bytes, uint64_t offset)
{
    uint8_t *at = mmap(NULL, bytes, PROT_READ | PROT_WRITE, MAP_SHARED, file, (off_t)offset);
    return at == MAP_FAILED ? NULL : at;
}

static bool log_is_taken_bluntly(struct dirty_log *log, struct log_place place)
{
    uint64_t end;
    if (place.bytes == 0)
        return is("log-empty");
    if (__builtin_add_overflow(place.bytes, place.offset, &end))
        return is("log-nowhere");
    if (!is("log-short"))
        return false;
    *log = (struct dirty_log){place, map_bluntly(place.file, place.bytes, place.offset), false};
    return log->bits;
}

WRAPPED(const char *, dirty_log_take, struct dirty_log *log, struct log_place place)
{
    if (log_is_taken_bluntly(log, place))
        return NULL;
    if (!is("log-old") || !log->bits)
        return __real_dirty_log_take(log, place);
    file_close(place.file);
    return NULL;
}

WRAPPED(uint8_t *, file_map, int file, uint64_t bytes, uint64_t offset)
{
    return is("log-unsealed") ? map_bluntly(file, bytes, offset)
                              : __real_file_map(file, bytes, offset);
}

WRAPPED(void, dirty_log_mark, struct dirty_log *log, uint64_t guest, uint64_t length)
{
    if (is("logs-nothing"))
        return;
    __real_dirty_log_mark(log, guest, length);
    log->is_short = log->is_short && !is("log-misses");
}

WRAPPED(int, guard, int (*act)(void *what), void *what)
{
    return is("log-kills") ? act(what) : __real_guard(act, what);
}

WRAPPED(ssize_t, pipe_read, int file, void *to, size_t length, bool *ended)
{
    if (!is("pipe-waits"))
        return __real_pipe_read(file, to, length, ended);
    ssize_t got = read(file, to, length);
    *ended = got == 0;
    return got;
}

/* Writes the sum that a device's bytes have over the one that is there. */
static void sum_up(uint8_t *bytes, size_t length)
{
    uint64_t sum = 0xcbf29ce484222325;
    for (size_t i = 0; i < length - MOVED_SUM; i++)
        sum = (sum ^ bytes[i]) * 0x100000001b3;
    memcpy(bytes + length - MOVED_SUM, &sum, sizeof sum);
}

WRAPPED(bool, moved_load, struct backend *backend, const uint8_t *bytes, size_t length)
{
    static uint8_t copy[MOST_MOVED + 1];
    memcpy(copy, bytes, length);
    if (is("any-state") && length >= MOVED_HEAD + MOVED_SUM)
        sum_up(copy, length);
    bool loads = __real_moved_load(backend, copy, length);
    if (!loads && is("forgets-refused"))
        balloon_set_target(&backend->balloon, 0);
    if (loads && is("index-0") && backend->moved.index == 0)
        backend->told.goes_on = backend->moved.awaits = false;
    return loads;
}

WRAPPED(bool, moved_begin, struct backend *backend)
{
    bool keeps = backend->balloon.keeps_pages;
    if (is("any-memory"))
        backend->moved.memory_end = backend->balloon.state.device.settings.memory_end;
    backend->balloon.keeps_pages = keeps || is("keeps-sent");
    bool begins = __real_moved_begin(backend);
    backend->balloon.keeps_pages = keeps;
    return begins;
}
