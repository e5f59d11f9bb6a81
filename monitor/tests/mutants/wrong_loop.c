/* Event loops that are wrong on purpose: tools/test vhost-user and tools/test host have to find
 * each, by one test of its own. The linker puts these functions before those of the same names, and
 * the environment's LOOP_WRONG names the one that it is:
 *
 *     no-hang-up        a file of which nothing but its end has come isn't served
 *     one-moment        of all moments that come one alone is waited for, the first
 *     last-first        what was waited for last is served first, and alone
 *     late-removal      a file that isn't waited for any longer is waited for in one more turn
 *     old-number        what serves a file is what served the first one that had its number
 */
#include "../../backends/base/loop.h"

#include <stdlib.h>
#include <string.h>

enum { MOST_NUMBER = 1024 };

/* What a file is waited for by. */
struct wait {
    int file;
    short events;
    loop_serve *serve;
    void *context;
};

/* What the first loop of the process waits for, in this turn and in the one before, and what each
 * number of a file was waited for by first. */
static struct {
    struct loop *loop;
    struct wait now[MOST_NUMBER], before[MOST_NUMBER], first[MOST_NUMBER];
    unsigned count, count_before;
    bool came; /* a moment has come */
} waits;

static bool is(const char *name)
{
    const char *wrong = getenv("LOOP_WRONG");
    return wrong && !strcmp(wrong, name);
}

int __real_poll_some(struct pollfd *files, nfds_t count, int limit);
int __wrap_poll_some(struct pollfd *files, nfds_t count, int limit);
void __real_loop_wait_for(struct loop *loop, int file, short events, loop_serve *serve,
                          void *context);
void __wrap_loop_wait_for(struct loop *loop, int file, short events, loop_serve *serve,
                          void *context);
void __real_loop_wait_until(struct loop *loop, int64_t moment);
void __wrap_loop_wait_until(struct loop *loop, int64_t moment);

/* What a file is waited for by: in a wrong loop by what served its number first. */
static struct wait as_waited(struct wait wait)
{
    if (wait.file >= MOST_NUMBER || !is("old-number"))
        return wait;
    struct wait *first = &waits.first[wait.file];
    if (!first->serve)
        *first = wait;
    return (struct wait){wait.file, wait.events, first->serve, first->context};
}

void __wrap_loop_wait_for(struct loop *loop, int file, short events, loop_serve *serve,
                          void *context)
{
    struct wait wait = {file, events, serve, context};
    waits.loop = waits.loop ? waits.loop : loop;
    if (loop == waits.loop && file >= 0) {
        wait = as_waited(wait);
        waits.now[waits.count++] = wait;
    }
    __real_loop_wait_for(loop, file, events, wait.serve, wait.context);
}

static bool is_waited_for(int file)
{
    for (unsigned i = 0; i < waits.count; i++)
        if (waits.now[i].file == file)
            return true;
    return false;
}

/* Waits once more for what was waited for in the turn before alone. */
static void wait_once_more(void)
{
    for (unsigned i = 0; i < waits.count_before; i++) {
        const struct wait *it = &waits.before[i];
        if (!is_waited_for(it->file))
            __real_loop_wait_for(waits.loop, it->file, it->events, it->serve, it->context);
    }
    memcpy(waits.before, waits.now, sizeof waits.before);
    waits.count_before = waits.count;
}

/* Forgets what has come of files but of the last. */
static void leave_last(struct pollfd *files, nfds_t count)
{
    bool last = true;
    for (nfds_t i = count; i-- > 0;) {
        files[i].revents = last ? files[i].revents : 0;
        last &= files[i].revents == 0;
    }
}

int __wrap_poll_some(struct pollfd *files, nfds_t count, int limit)
{
    bool mine = waits.loop && files == waits.loop->files;
    if (mine && is("late-removal"))
        wait_once_more();
    if (mine)
        count = waits.loop->count, waits.count = 0;
    int found = __real_poll_some(files, count, limit);
    waits.came |= found == 0;
    for (nfds_t i = 0; i < count && is("no-hang-up"); i++)
        files[i].revents &= ~(POLLHUP | POLLRDHUP | POLLERR);
    if (is("last-first"))
        leave_last(files, count);
    return found;
}

void __wrap_loop_wait_until(struct loop *loop, int64_t moment)
{
    if (!waits.came || !is("one-moment"))
        __real_loop_wait_until(loop, moment);
}
