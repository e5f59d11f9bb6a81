/* Guests' processes that are wrong on purpose: tests have to find each. The linker puts these
 * functions before those of the same names, and the environment's HOST_WRONG says which one it is:
 *
 *     5  counts all pages of a deflate that ends below the target as taken
 *     8  a region that comes back has the pages in the balloon that the one before had there
 *    28  a guest that migrates takes pages
 *    29  a guest that comes from another host has no room before it has memory
 *    30  a device is loaded that has fewer pages in its balloon than it was to come with
 *    31  the target of a device that is loaded is taken, whatever the lender wants
 *    32  what the process before has written last isn't marked in the log
 */
#include "../../backends/process/lent.h"

#include <stdlib.h>

enum {
    WHOLE_DEFLATE = 5,
    INHERITS = 8,
    TAKES_PAGES = 28,
    COMES_AT_ONCE,
    COMES_WITH_LESS,
    TAKES_TARGET,
    LACKS_LAST,
    /* Where the target of a device is in its bytes (docs/LINUX.md, docs/INTEGRATION.md). */
    TARGET_AT = 32 + 46
};

uint64_t __real_counters_taken(uint32_t, uint32_t, uint32_t);
uint64_t __wrap_counters_taken(uint32_t, uint32_t, uint32_t);
bool __real_marks_follow(struct backend *, struct marks *, uint64_t);
bool __wrap_marks_follow(struct backend *, struct marks *, uint64_t);

bool __real_queue_is_postponed(const struct backend *, uint32_t);
bool __wrap_queue_is_postponed(const struct backend *, uint32_t);
bool __real_awaited_comes(struct backend *, uint32_t, uint32_t);
bool __wrap_awaited_comes(struct backend *, uint32_t, uint32_t);
bool __real_moved_load(struct backend *, const uint8_t *, size_t);
bool __wrap_moved_load(struct backend *, const uint8_t *, size_t);

bool __real_migration_regain(struct backend *, struct log_place, const struct ring *);
bool __wrap_migration_regain(struct backend *, struct log_place, const struct ring *);

static int wrong(void)
{
    const char *number = getenv("HOST_WRONG");
    return number ? atoi(number) : 0;
}

uint64_t __wrap_counters_taken(uint32_t before, uint32_t after, uint32_t target)
{
    uint64_t taken = __real_counters_taken(before, after, target);
    return taken > 0 && wrong() == WHOLE_DEFLATE ? before - after : taken;
}

bool __wrap_marks_follow(struct backend *backend, struct marks *marks, uint64_t end)
{
    size_t words = backend->balloon.ballooned_words;
    uint32_t ballooned = backend->ballooned;
    uint64_t *set = marks->set && wrong() == INHERITS ? malloc(words * sizeof *set) : NULL;
    if (set)
        memcpy(set, marks->set, words * sizeof *set);
    bool made = __real_marks_follow(backend, marks, end);
    size_t now = backend->balloon.ballooned_words;
    if (set)
        memcpy(marks->set, set, (now < words ? now : words) * sizeof *set),
            backend->ballooned = ballooned;
    free(set);
    return made;
}

bool __wrap_queue_is_postponed(const struct backend *backend, uint32_t kind)
{
    return wrong() != TAKES_PAGES && __real_queue_is_postponed(backend, kind);
}

bool __wrap_awaited_comes(struct backend *backend, uint32_t pages, uint32_t given)
{
    return wrong() == COMES_AT_ONCE || __real_awaited_comes(backend, pages, given);
}

bool __wrap_moved_load(struct backend *backend, const uint8_t *bytes, size_t length)
{
    uint32_t target;
    if (wrong() == COMES_WITH_LESS)
        backend->comes_with = 0;
    bool loads = __real_moved_load(backend, bytes, length);
    if (loads && wrong() == TAKES_TARGET) {
        memcpy(&target, bytes + TARGET_AT, sizeof target);
        balloon_set_target(&backend->balloon, target);
    }
    return loads;
}

bool __wrap_migration_regain(struct backend *backend, struct log_place place,
                             const struct ring *rings)
{
    static const struct ring none[QUEUES];
    return __real_migration_regain(backend, place, wrong() == LACKS_LAST ? none : rings);
}
