/* A guest's driver, as Linux's: it inflates and deflates by requests of 256 pages, one at a time,
 * by the target that it read before each. Where the guest is out of memory, it deflates by itself,
 * and what takes memory waits for that. */
#include "days.h"

/* Microseconds of a page that is filled, and before a driver that finds no page to give tries
 * again; pages that are looked at for each that is reclaimed. */
enum { OF_PAGE = 2, TRIES_AGAIN = SECOND / 5, SCANNED_EACH = 3 };

static void work(struct guest *guest);
static void fill(struct guest *guest);

uint32_t driver_free(const struct guest *guest)
{
    return guest->pages - guest->used - guest->cached - guest->balloon - guest->leaks;
}

uint32_t driver_spare(const struct guest *guest)
{
    uint32_t free = driver_free(guest) + guest->cached;
    return free - smaller(free, KERNEL_KEEPS);
}

bool driver_frees(struct guest *guest, uint32_t pages, bool waits)
{
    struct reclaims *its = &guest->reclaims;
    uint32_t free = driver_free(guest) - smaller(driver_free(guest), KERNEL_KEEPS);
    uint32_t lacks = pages - smaller(pages, free), taken = smaller(lacks, guest->cached);
    guest->cached -= taken;
    *(waits ? &its->reclaimed : &its->async_reclaimed) += taken;
    *(waits ? &its->scanned : &its->async_scanned) += (uint64_t)SCANNED_EACH * taken;
    its->stalls += waits && lacks > 0;
    return taken > 0;
}

/* Pages leave the balloon by a request, and are free once it is used. */
static void leak(struct guest *guest, uint32_t pages)
{
    guest->balloon -= pages;
    guest->leaks = pages;
    guest->deflates = pages;
    process_kicked(guest);
}

/* The next one may have a request on its way: who is out of memory first. */
static void unlock(struct guest *guest)
{
    guest->locked = false;
    if (guest->out_of_memory)
        later(guest, fill, 0);
    else if (guest->worker_waits)
        later(guest, work, 0);
    guest->worker_waits &= guest->out_of_memory;
}

/* One request by the target that was read. */
static void request(struct guest *guest)
{
    uint32_t target = guest->read_target, balloon = guest->balloon;
    uint32_t most = target > balloon ? driver_spare(guest) : balloon,
             lacks = target > balloon ? target - balloon : balloon - target;
    uint32_t pages = smaller(smaller(lacks, PAGES_OF_REQUEST), most);
    if (pages == 0) {
        unlock(guest);
        guest->work_is_queued |= lacks > 0;
        if (lacks > 0)
            later(guest, work, TRIES_AGAIN);
        return;
    }
    if (target < balloon) {
        leak(guest, pages);
        return;
    }
    if (driver_frees(guest, pages, true))
        moves_gives_cache();
    guest->balloon += pages;
    guest->inflates = pages;
    process_kicked(guest);
}

/* The worker reads the target, and makes a request a moment later. */
static void work(struct guest *guest)
{
    guest->work_is_queued = false;
    if (!guest->report.ready)
        return;
    if (guest->locked) {
        guest->worker_waits = true;
        return;
    }
    guest->locked = true;
    process_is_read(guest);
    soon(guest, request);
}

void driver_is_told(struct guest *guest)
{
    if (guest->work_is_queued || !guest->report.ready)
        return;
    guest->work_is_queued = true;
    soon(guest, work);
}

/* A request is used: the worker continues. */
static void used(struct guest *guest)
{
    guest->report.actual = guest->balloon;
    unlock(guest);
    driver_is_told(guest);
}

void driver_inflated(struct guest *guest)
{
    used(guest);
}

void driver_deflated(struct guest *guest)
{
    guest->leaks = 0;
    used(guest);
}

/* Takes memory, as far as there is some; where there is none left, its driver deflates. */
static void fill(struct guest *guest)
{
    uint32_t pages = smaller(smaller(guest->wants, PAGES_OF_REQUEST), driver_spare(guest));
    guest->used += pages;
    guest->filled += pages;
    guest->wants -= pages;
    guest->out_of_memory = guest->wants > 0 && driver_spare(guest) == 0;
    if (guest->wants == 0)
        work_is_filled(guest);
    else if (!guest->out_of_memory)
        later(guest, fill, pages * OF_PAGE + 1);
    else if (!guest->locked && guest->balloon == 0)
        town_ends("is out of memory, and has none in its balloon", guest);
    else if (!guest->locked) {
        guest->locked = true;
        leak(guest, smaller(guest->balloon, PAGES_OF_REQUEST));
    }
}

void driver_fills(struct guest *guest, uint32_t pages)
{
    guest->wants = pages;
    fill(guest);
}

/* Its kernel is there. */
static void boot(struct guest *guest)
{
    guest->report.ready = true;
    guest->news = true;
    driver_is_told(guest);
    work_begins(guest);
}

void driver_begins(struct guest *guest)
{
    guest->balloon = guest->leaks = guest->report.actual = 0;
    guest->locked = guest->worker_waits = guest->work_is_queued = guest->out_of_memory = false;
    later(guest, boot, chance(SECOND / 2, 2 * SECOND));
}
