/* Devices that are wrong on purpose: tests have to find each. The linker puts these functions
 * before those of the same names, and the environment's BALLOON_WRONG says which device it is:
 *
 *     1  discards the page after the one that an inflate names
 *     2  gives a chain back by another id
 *     3  discards pages again half a second after they came back to the guest
 *     4  adds two to the used index
 *     5  discards nothing of an inflate
 */
#include "wrong_device.h"
#include "../../backends/balloon/audit.h"

#include <poll.h>
#include <stdlib.h>
#include <time.h>

enum {
    NEXT_PAGE = 1,
    OTHER_ID,
    LATE,
    BY_TWO,
    KEEPS,
    MOST_LATE = 65536,
    LATE_BY = 500,
    LOOK_EVERY = 20
};

const struct guest_memory *wrong_memory;

static VbRun late_runs[MOST_LATE];
static unsigned late_count;
static int64_t late_at;

uint32_t __real_vb_begin(VbNotice *, VbBalloon *, const VbRegion *, size_t, VbRoom *, uint32_t,
                         uint32_t, uint32_t, uint32_t);
uint32_t __wrap_vb_begin(VbNotice *, VbBalloon *, const VbRegion *, size_t, VbRoom *, uint32_t,
                         uint32_t, uint32_t, uint32_t);
uint32_t __real_vb_give_held(VbNotice *, VbBalloon *, const VbRegion *, size_t, VbRoom *, uint32_t);
uint32_t __wrap_vb_give_held(VbNotice *, VbBalloon *, const VbRegion *, size_t, VbRoom *, uint32_t);
uint32_t __real_vb_go_on(VbNotice *, VbBalloon *, const VbRegion *, size_t, VbRoom *, uint16_t);
uint32_t __wrap_vb_go_on(VbNotice *, VbBalloon *, const VbRegion *, size_t, VbRoom *, uint16_t);
int __real_poll(struct pollfd *, nfds_t, int);
int __wrap_poll(struct pollfd *, nfds_t, int);

static int wrong(void)
{
    const char *number = getenv("BALLOON_WRONG");
    return number ? atoi(number) : 0;
}

static int64_t now(void)
{
    struct timespec time;
    clock_gettime(CLOCK_MONOTONIC, &time);
    return time.tv_sec * INT64_C(1000) + time.tv_nsec / 1000000;
}

static void remember(const VbRun *runs, uint32_t count)
{
    for (uint32_t i = 0; i < count && late_count < MOST_LATE; i++)
        late_runs[late_count++] = runs[i];
    late_at = now() + LATE_BY;
}

/* What the library says is to be done, wrong as wished. */
static void spoil(VbNotice *notice, VbRoom *room)
{
    bool inflates = notice->kind == VB_INFLATE && notice->what & VB_DISCARD;
    for (uint32_t i = 0; i < notice->cuts && inflates && wrong() == NEXT_PAGE; i++) {
        room->cuts[i].offset += BALLOON_PAGE;
        room->cuts[i].in_file += BALLOON_PAGE;
    }
    if (notice->kind == VB_DEFLATE && notice->what & VB_TELL_PAGES && wrong() == LATE)
        remember(room->runs, notice->runs);
    if (inflates && wrong() == KEEPS)
        notice->cuts = 0;
    notice->id += wrong() == OTHER_ID;
    notice->used_index = (uint16_t)(notice->used_index + (wrong() == BY_TWO));
}

static uint32_t whole,
    left; /* what the library says is to be done, and what of it isn't handed over yet */

/* Hands over what comes before a chain is given back, and then the rest, so that the audit looks
 * between them. */
static uint32_t hand_over(VbNotice *notice)
{
    uint32_t before = left & (VB_GIVE_BACK - 1);
    notice->what = before ? before : left;
    left &= ~notice->what;
    if (notice->what & VB_GIVE_BACK)
        audit_use();
    return notice->what;
}

static uint32_t begin(VbNotice *notice, VbRoom *room)
{
    spoil(notice, room);
    whole = left = notice->what;
    return hand_over(notice);
}

uint32_t __wrap_vb_begin(VbNotice *notice, VbBalloon *balloon, const VbRegion *regions,
                         size_t count, VbRoom *room, uint32_t kind, uint32_t chains, uint32_t pages,
                         uint32_t keeps)
{
    __real_vb_begin(notice, balloon, regions, count, room, kind, chains, pages, keeps);
    return begin(notice, room);
}

uint32_t __wrap_vb_give_held(VbNotice *notice, VbBalloon *balloon, const VbRegion *regions,
                             size_t count, VbRoom *room, uint32_t kind)
{
    __real_vb_give_held(notice, balloon, regions, count, room, kind);
    return begin(notice, room);
}

uint32_t __wrap_vb_go_on(VbNotice *notice, VbBalloon *balloon, const VbRegion *regions,
                         size_t count, VbRoom *room, uint16_t answer)
{
    if (left)
        return hand_over(notice);
    notice->what = whole;
    __real_vb_go_on(notice, balloon, regions, count, room, answer);
    return begin(notice, room);
}

static void discard_late(void)
{
    for (unsigned i = 0; i < late_count; i++)
        for (unsigned k = 0; wrong_memory && k < wrong_memory->count; k++) {
            const struct balloon_region *region = &wrong_memory->regions[k];
            uint64_t at = (uint64_t)late_runs[i].first * BALLOON_PAGE - region->guest;
            if (at < region->length)
                balloon_discard_bytes(region, at, (uint64_t)late_runs[i].count * BALLOON_PAGE);
        }
    late_count = 0;
}

int __wrap_poll(struct pollfd *files, nfds_t count, int limit)
{
    if (late_count > 0 && now() >= late_at)
        discard_late();
    bool looks = late_count > 0 && (limit < 0 || limit > LOOK_EVERY);
    return __real_poll(files, count, looks ? LOOK_EVERY : limit);
}
