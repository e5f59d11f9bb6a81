#include "lives.h"

#include "backend.h"

bool life_may_empty(struct backend *backend, bool is_empty)
{
    return is_empty || !backend->balloon.ballooned || !backend->empties ||
           backend->empties(backend);
}

static void empty(struct backend *backend)
{
    struct balloon *balloon = &backend->balloon;
    if (balloon->ballooned)
        memset(balloon->ballooned, 0, balloon->ballooned_words * sizeof balloon->ballooned[0]),
            backend->ballooned = backend->undiscarded = 0;
}

bool life_ends(struct backend *backend)
{
    bool may = life_may_empty(backend, backend->ballooned == 0);
    if (may)
        empty(backend);
    return may;
}

/* At 0 a new life begins, with nothing in the balloon; else the last one continues. Where a device
 * was loaded that says at which index it continues, so does its driver at that one, and at another
 * one a new life begins; and where none was, of a guest that was to come with its balloon. What
 * leaves the balloon by that has to be lent before. */
bool life_begins(struct backend *backend, uint16_t position)
{
    bool is_loaded = backend->moved.awaits;
    bool is_awaited = backend->comes_with > 0;
    bool goes_on = is_loaded ? position == backend->moved.index : position > 0 && !is_awaited;
    if (!backend->told.goes_on && !is_awaited)
        return true;
    bool stays = goes_on && !(is_loaded && moved_takes_pages(backend));
    if (!stays && !life_may_empty(backend, backend->ballooned == 0 && !is_awaited))
        return false;
    backend->told.goes_on = backend->moved.awaits = false;
    if (goes_on && is_loaded)
        return moved_begin(backend);
    backend->comes_with = 0;
    if (goes_on)
        configuration_write(&backend->balloon.state.device, ACTUAL_AT, backend->told.actual);
    else
        empty(backend);
    return true;
}
