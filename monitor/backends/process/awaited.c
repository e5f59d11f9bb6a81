/* Pages that a guest has started without: they count in its balloon, as if its driver had put them
 * there, until it has. The kernel's limit keeps them from the guest meanwhile. */
#include "lent.h"

#include <inttypes.h>

static uint32_t larger(uint32_t one, uint32_t other)
{
    return one > other ? one : other;
}

uint32_t lent_ballooned(const struct lent *lent)
{
    return larger(backend_given(&lent->backend), lent->awaited);
}

enum lending_hold lent_hold(const struct lent *lent)
{
    if (!lent->backend.options->holds)
        return HOLDS_NOTHING;
    if (lent->reserved > 0 && lent->notes.pages == 0)
        return HOLDS_DEFLATES;
    return lent->awaited > 0 ? HAS_STARTED_SMALL : MAY_START_SMALL;
}

enum lending_migration lent_migration(const struct lent *lent)
{
    const struct backend *backend = &lent->backend;
    enum transfer_state transfer = backend->transfer.state;
    bool comes = lent->reserved > 0 || backend->moved.awaits || transfer == TRANSFER_LOADS ||
                 transfer == TRANSFER_READ;
    if (comes && !rings_run(backend))
        return MIGRATES_IN;
    return backend->told.features & LOG_ALL ? MIGRATES_OUT : MIGRATES_NOT;
}

bool awaited_comes(struct backend *backend, uint32_t pages, uint32_t given)
{
    struct lent *lent = (struct lent *)backend;
    if (backend->options->holds && given < lent->awaited)
        return refuse("it comes with %" PRIu32 " pages given up, and was to with %" PRIu32, given,
                      lent->awaited);
    lent->reserved = pages;
    lent->awaited = backend->options->holds ? given : 0;
    if (pages == 0 || !lent_await(lent, WAIT_ROOM, pages))
        return false;
    lent->notes.pages = pages;
    return true;
}

bool awaited_begin(struct lent *lent, uint32_t pages)
{
    if (lent->waits == WAIT_ROOM && lent->notes.pages > 0)
        return false;
    lent->awaited = pages;
    lent->returns = 0;
    lent->notes.reads = lent->notes.reads && pages == 0; /* its driver isn't there yet */
    return pages > 0;
}

/* Has its report tell of a change at once. */
static void tell(struct lent *lent)
{
    lent->news = true;
    lent->report_at = 0;
}

void awaited_note(struct lent *lent)
{
    if (lent->awaited == 0)
        return;
    uint32_t given = backend_given(&lent->backend),
             wanted = larger(given, lent->backend.balloon.state.device.target);
    if (lent->awaited > lent->notes.pages)
        lent->awaited = lent->notes.pages;
    if (lent->awaited <= given) {
        lent->awaited = lent->returns = 0;
        tell(lent);
    }
    if (lent->awaited <= wanted || lent->notes.held_pages > 0 || lent->returns > 0)
        return;
    lent->returns = lent->awaited - wanted;
    lent->notes.held_wait++;
    tell(lent);
}

void awaited_leave(struct lent *lent, uint32_t pages)
{
    lent->awaited -= pages < lent->awaited ? pages : lent->awaited;
    lent->returns = 0;
    tell(lent);
}
