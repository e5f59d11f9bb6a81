/* A balloon over any regions, and notices that begin or go on at random. */
#include "any.h"

static VbBalloon any_balloon(void)
{
    VbBalloon balloon = {.device = any_device()};
    balloon.held.statistics = once_in(2) ? 0 : (uint32_t)any_number();
    balloon.held.deflate = once_in(2) ? 0 : (uint32_t)any_number();
    balloon.held.pages = once_in(2) ? 0 : (uint32_t)any_number();
    return balloon;
}

static bool same_held(const VbHeld *one, const VbHeld *other)
{
    return one->statistics == other->statistics && one->deflate == other->deflate &&
           one->pages == other->pages;
}

static bool same_balloon(const VbBalloon *one, const VbBalloon *other)
{
    return same(&one->device, &other->device) && same_held(&one->held, &other->held);
}

/* A start, a stop and a forgotten buffer, as the plain ones; a refusal leaves all as it was. */
static void call_queues(VbBalloon *balloon, VbBalloon *twin, const VbRegion *regions, size_t count)
{
    VbQueueStart start = {any() % (24 << 20) & ~UINT64_C(15), any() % (24 << 20) & ~UINT64_C(1),
                          any() % (24 << 20) & ~UINT64_C(3),
                          (uint16_t)(once_in(4) ? any_number() : 2u << any() % 8),
                          (uint16_t)any_number()};
    const VbBalloon before = *balloon;
    uint32_t kind = once_in(16) ? (uint32_t)any_number() : any() % 5;
    uint16_t next = 7, why = 7;
    if (once_in(8))
        start.table = any_number();
    uint32_t code = vb_start_queue(balloon, regions, count, kind, start);
    EXPECT(code == reference_start_queue(twin, regions, count, kind, start) &&
           same_balloon(balloon, twin));
    EXPECT(code == VB_OK || same_balloon(balloon, &before));
    answers[code]++;
    code = vb_stop_queue(balloon, kind, &next);
    EXPECT(code == reference_stop_queue(twin, kind, &why) && next == why &&
           same_balloon(balloon, twin));
    uint32_t pages = 7, other = 8;
    kind = once_in(2) ? kind : any() % 5;
    EXPECT(vb_held(balloon, kind, &pages) == reference_held(twin, kind, &other) && pages == other);
    EXPECT(once_in(2) || (vb_forget_held(balloon, kind) == reference_forget_held(twin, kind) &&
                          same_balloon(balloon, twin)));
    EXPECT(vb_kind_of(start.table, kind) == reference_kind_of(start.table, kind));
}

void call_over(void)
{
    VbBalloon before = any_balloon(), balloon = before, twin = before;
    size_t count;
    VbRegion *regions = any_regions(&count);
    VbSettings settings = before.device.settings;
    uint32_t kind = (uint32_t)any_number(), then = 7, why = 7;
    uint16_t size = (uint16_t)(once_in(2) ? any_number() : 2u << any() % 8);
    uint64_t table = any() % (24 << 20) & ~UINT64_C(15), avail = any() % (24 << 20) & ~UINT64_C(1);
    uint64_t used = any() % (24 << 20) & ~UINT64_C(3);
    const VbQueuePlace at = {table, avail, used, size};
    settings.memory_end = once_in(2) ? 0 : any_number();
    uint32_t code = vb_new_over(&balloon, settings, regions, count);
    EXPECT(code == reference_new_over(&twin, settings, regions, count));
    EXPECT(same_balloon(&balloon, code == VB_OK ? &twin : &before));
    balloon = twin = before;
    code = vb_set_regions(&balloon, regions, count);
    EXPECT(code == reference_set_regions(&twin, regions, count) && same_balloon(&balloon, &twin));
    EXPECT(code == VB_OK || same_balloon(&balloon, &before));
    balloon.device.status = twin.device.status = before.device.status =
        once_in(8) ? (uint8_t)any() : 11;
    before = balloon;
    code = vb_place_over(&balloon, regions, count, kind % 6, at);
    EXPECT(code == reference_place_over(&twin, regions, count, kind % 6, at));
    EXPECT(same_balloon(&balloon, &twin));
    EXPECT(code == VB_OK || same_balloon(&balloon, &before));
    answers[code]++;
    call_queues(&balloon, &twin, regions, count);
    uint8_t status = (uint8_t)any_number();
    EXPECT(vb_set_status(&balloon, status, &then) == reference_set_status(&twin, status, &why) &&
           then == why);
    EXPECT(same_balloon(&balloon, &twin));
}

/* A notice begins as the plain one does, and one that no call made is answered, and writes nowhere
 * else. */
void call_notice(void)
{
    static VbRoom other;
    VbBalloon balloon = any_balloon(), twin = balloon;
    size_t count;
    VbRegion *regions = any_regions(&count);
    VbNotice *notice = list_of(1, sizeof *notice), why;
    VbRoom *room = list_of(2, sizeof *room);
    uint32_t kind = once_in(8) ? (uint32_t)any_number() : any() % 5, chains = any() % 3,
             pages = (uint32_t)any_number();
    uint32_t keeps = once_in(2) ? (uint32_t)any_number() : 0;
    uint32_t what = vb_begin(notice, &balloon, regions, count, room, kind, chains, pages, keeps);
    uint32_t first =
        reference_begin(&why, &twin, regions, count, &other, kind, chains, pages, keeps);
    EXPECT(what == notice->what && (what & -what) == first && same_balloon(&balloon, &twin));
    EXPECT(!what || (notice->keeps != 0) == (keeps != 0));
    EXPECT(what || (notice->code == why.code && notice->more == why.more &&
                    notice->configuration == why.configuration));
    answers[what ? VB_OK : notice->code]++;
    for (int i = 0; i < 4; i++) {
        for (size_t at = 0; at < sizeof *notice && !once_in(4); at += 8)
            memcpy((uint8_t *)notice + at, &(uint64_t){once_in(2) ? any_number() : any() % 300}, 8);
        if (vb_go_on(notice, &balloon, regions, count, room, (uint16_t)any()) == 0)
            EXPECT(notice->what == 0);
    }
}
