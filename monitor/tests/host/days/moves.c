/* A day on which the working set moves from guest to guest, shift after shift. The guest that is
 * busy reads the files of its working set again and again, at random, through its page cache; the
 * others stand still with what they have cached, and the last one never reads. As in Linux, a guest
 * without a free page reclaims its own page cache for what it reads, mostly in the background, and
 * counts what its work waits for. What is demanded: the cached pages follow the working set, the
 * busy guest isn't late to get pages that others have, and nobody who answers keeps memory that is
 * used for nothing while others give page cache. */
#include "days.h"

#include <stddef.h>

/* Pages of the working set; how many are read at a time, in microseconds; of as many times that
 * find no free page one waits for reclaim. */
enum { WORKING_SET = 100 * 256, READS = 200, EACH = 10 * MILLISECOND, STALLS = 8 };

/* Seconds of a shift, and those at its end in which nothing is read from a disk. For how long no
 * page may come from the host while the working set lacks some: a guest at rest is asked once in a
 * second, and two steps may each take the longest time. */
enum { SHIFT = 30, CALM = 10, LATE = 3 * SECOND / 2, LATE_BY_STEPS = 2 * LONGEST };

/* Pages that stay to a guest before others give page cache: its floor, a reserve of 5 percent, and
 * what its kernel keeps; and what it keeps unused at most: what is too little to change a target
 * for besides, and a request. */
enum {
    FLOOR = 12 * 256,
    STAYS = FLOOR + 244 * 256 / 20 + KERNEL_KEEPS,
    MOST_UNUSED = STAYS + FLOOR / 8 + 256
};

static struct guest *busy(void)
{
    return &day->guests[day->shifts % (day->size - 1)];
}

static uint32_t missing_of(const struct guest *guest)
{
    return guest->cached < WORKING_SET ? WORKING_SET - guest->cached : 0;
}

/* What isn't cached is read from the disk, into a free page or one that was cached before. */
static void read_some(struct guest *guest)
{
    uint32_t missing = missing_of(guest);
    if (guest != busy())
        return;
    uint32_t pages =
        missing > 0 ? 1 + (uint32_t)((uint64_t)(READS - 1) * missing / WORKING_SET) : 0;
    if (pages > 0) {
        day->read_at = day->now;
        driver_frees(guest, pages, chance(1, STALLS) == 1);
        guest->cached += pages;
    }
    later(guest, read_some, EACH);
}

/* What a guest could give nobody knows that has left three questions unanswered, or unread; others
 * are asked then, and a step that they give by may take the longest time. */
static void look_at_silence(struct guest *guest)
{
    const struct mail *orders = &guest->orders;
    unsigned questions = guest->unanswered;
    for (unsigned i = 0; i < orders->count; i++)
        questions += orders->messages[(orders->first + i) % MOST_MAIL].asks;
    if (questions >= 3)
        guest->silent_at = day->now;
}

static bool was_silent(const struct guest *guest)
{
    return day->now - guest->silent_at <= LONGEST;
}

void moves_gives_cache(void)
{
    for (unsigned i = 0; i < day->size; i++) {
        const struct guest *its = &day->guests[i];
        uint32_t owes = its->target > its->balloon ? its->target - its->balloon : 0;
        if (its != busy() && !was_silent(its) && driver_free(its) > owes + MOST_UNUSED)
            town_ends("keeps unused memory while another gives page cache", its);
    }
}

/* What it keeps of the unused memory that it could give. */
static uint32_t kept_by(const struct guest *guest)
{
    return driver_free(guest) - smaller(driver_free(guest), STAYS);
}

/* In the first shift nobody but the busy guest has anything cached: what isn't missing there stays
 * unused to the others by their weights. */
static void look_at_weights(void)
{
    const struct guest *heavy = &day->guests[day->size - 1];
    for (unsigned i = 0; i + 1 < day->size && day->shifts == 0; i++)
        if (&day->guests[i] != busy() && kept_by(heavy) < 2 * kept_by(&day->guests[i]))
            town_ends("keeps less unused memory than its weight says", heavy);
}

static void end_shift(struct guest *guest)
{
    if (day->plan.weight > 1)
        look_at_weights();
    if (missing_of(guest) > 0)
        town_ends("hasn't its working set cached at the end of its shift", guest);
    if (day->now - day->read_at < CALM * (int64_t)SECOND)
        town_ends("reads from its disk until the end of its shift", guest);
    guest->works++;
}

static void begin_shift(struct guest *guest)
{
    day->shift_ends = day->now + SHIFT * (int64_t)SECOND;
    day->came_at = 0;
    later(guest, read_some, 0);
}

void moves_begin(void)
{
    begin_shift(busy());
}

/* Since when the busy guest has found no free page, and none has come from the host. */
static void look_at_wants(const struct guest *guest)
{
    uint32_t has = guest->pages - guest->balloon;
    bool wants = missing_of(guest) > 0 && driver_free(guest) <= KERNEL_KEEPS;
    if (!wants || has > day->had || day->came_at == 0)
        day->came_at = day->now;
    day->had = has;
    int64_t waits = day->now - day->came_at;
    day->longest = waits > day->longest ? waits : day->longest;
    if (waits > LATE + (day->plan.slow > 0 ? LATE_BY_STEPS : 0))
        town_ends("is late to get a page that others have", guest);
}

void moves_look(void)
{
    struct guest *guest = busy();
    for (unsigned i = 0; i < day->size; i++)
        look_at_silence(&day->guests[i]);
    look_at_wants(guest);
    if (day->now < day->shift_ends)
        return;
    end_shift(guest);
    day->shifts++;
    begin_shift(busy());
}
