/* Each thing that the library says is explained: the plain implementation says the same of the same
 * answers. */
#include "scribble.h"
#include "../../reference/calls.h"

/* Calls of the library that are explained: the linker puts the second ones in the place of the
 * first ones. */
uint32_t __real_vb_begin(VbNotice *, VbBalloon *, const VbRegion *, size_t, VbRoom *, uint32_t,
                         uint32_t, uint32_t, uint32_t);
uint32_t __real_vb_give_held(VbNotice *, VbBalloon *, const VbRegion *, size_t, VbRoom *, uint32_t);
uint32_t __real_vb_go_on(VbNotice *, VbBalloon *, const VbRegion *, size_t, VbRoom *, uint16_t);
uint32_t __wrap_vb_begin(VbNotice *, VbBalloon *, const VbRegion *, size_t, VbRoom *, uint32_t,
                         uint32_t, uint32_t, uint32_t);
uint32_t __wrap_vb_give_held(VbNotice *, VbBalloon *, const VbRegion *, size_t, VbRoom *, uint32_t);
uint32_t __wrap_vb_go_on(VbNotice *, VbBalloon *, const VbRegion *, size_t, VbRoom *, uint16_t);

bool is_named[PAGES], names, may_call;
uint64_t changed, calls_between;

/* The plain implementation beside the library: it says one thing at a time, and gets the same
 * answers. */
static struct {
    VbBalloon balloon;
    VbNotice notice;
    VbRoom room;
} twin;

/* What the library says is handed to the balloon bit by bit, in every other notice: `left` is what
 * isn't handed over yet. */
static struct {
    uint32_t whole, left;
    bool splits;
} said;

static void expect_same(const VbBalloon *balloon)
{
    const VbDevice *one = &balloon->device, *other = &twin.balloon.device;
    EXPECT(one->status == other->status && one->features == other->features);
    EXPECT(one->target == other->target && one->actual == other->actual);
    EXPECT(same_queue(&one->inflate, &other->inflate) &&
           same_queue(&one->deflate, &other->deflate));
    EXPECT(same_queue(&one->statistics, &other->statistics) &&
           same_queue(&one->report, &other->report));
    EXPECT(same_queue(&one->hint, &other->hint) && one->round.shown == other->round.shown &&
           one->round.last == other->round.last);
    EXPECT(one->round.opened == other->round.opened);
}

static bool same_spot(VbSpot one, VbSpot other)
{
    return one.region == other.region && one.offset == other.offset;
}

/* Beside the pages that a portion of the same request has named before. */
static void mark_runs(const VbRun *runs, uint32_t count)
{
    if (!names)
        memset(is_named, 0, sizeof is_named);
    for (uint32_t i = 0; i < count; i++)
        for (uint64_t page = runs[i].first;
             page < (uint64_t)runs[i].first + runs[i].count && page < PAGES; page++)
            is_named[page] = true;
}

/* One thing that the library says is what the plain implementation says. */
static void expect_thing(uint32_t what, const VbNotice *notice, const VbRoom *room, uint32_t cut)
{
    const VbNotice *why = &twin.notice;
    EXPECT(why->what == what && why->kind == notice->kind);
    switch (what) {
    case VB_TELL_PAGES:
        EXPECT(notice->runs == why->runs && notice->pages == why->pages &&
               notice->skipped == why->skipped);
        EXPECT(notice->kept == why->kept);
        EXPECT(memcmp(room->runs, twin.room.runs, notice->runs * sizeof room->runs[0]) == 0);
        mark_runs(twin.room.runs, why->runs);
        names = true;
        break;
    case VB_TELL_FIGURES:
        EXPECT(notice->figures == why->figures);
        for (uint32_t i = 0; i < why->figures; i++)
            EXPECT(room->figures[i].tag == twin.room.figures[i].tag &&
                   room->figures[i].value == twin.room.figures[i].value);
        break;
    case VB_TELL_ID:
        EXPECT(notice->hint_id == why->hint_id);
        break;
    case VB_DISCARD:
        EXPECT(why->cuts == 1 &&
               memcmp(&room->cuts[cut], &twin.room.cuts[0], sizeof room->cuts[0]) == 0);
        break;
    case VB_GIVE_BACK:
        EXPECT(notice->id == why->id && notice->used_length == 0 &&
               notice->used_index == why->used_index);
        EXPECT(same_spot(notice->id_at, why->id_at) &&
               same_spot(notice->length_at, why->length_at));
        EXPECT(same_spot(notice->index_at, why->index_at));
        break;
    case VB_READ:
        EXPECT(same_spot(notice->at, why->at));
        break;
    case VB_COPY:
        EXPECT(same_spot(notice->at, why->at) && notice->length == why->length &&
               notice->into == why->into);
        break;
    }
}

/* All that the library says is what the plain implementation says in its turns, which waits at the
 * last one then. */
static void expect_what(const VbNotice *notice, const VbBalloon *balloon, const VbRegion *regions,
                        size_t count, const VbRoom *room)
{
    bool first = true;
    for (uint32_t what = 1; what <= VB_PAUSE; what *= 2)
        for (uint32_t i = 0; i < (!(notice->what & what) ? 0
                                  : what == VB_DISCARD   ? notice->cuts
                                                         : 1);
             i++) {
            if (!first)
                reference_go_on(&twin.notice, &twin.balloon, regions, count, &twin.room, 0);
            first = false;
            expect_thing(what, notice, room, i);
        }
    expect_same(balloon);
    if (notice->what)
        return;
    const VbNotice *why = &twin.notice;
    EXPECT(why->what == 0 && notice->code == why->code &&
           (notice->code != VB_BROKEN || notice->rule == why->rule));
    EXPECT(notice->interrupt == why->interrupt && notice->configuration == why->configuration &&
           notice->more == why->more);
    EXPECT(notice->code <= VB_BROKEN || !may_call);
    EXPECT(!memcmp(&balloon->held, &twin.balloon.held, sizeof balloon->held));
    if (names && notice->code == VB_STALE)
        stamp_again();
    else if (names)
        see_pages(notice->kind); /* of a request that is held, or broken in a later portion */
}

/* Now and then the device is called between two steps, and the other one likewise. */
static void call_between(const VbNotice *notice, VbBalloon *balloon, const VbRegion *regions,
                         size_t count)
{
    static uint64_t random = 1181783497276652981ull;
    const VbQueueStart there = {0x60000, 0x61000, 0x62000, 8, 5};
    VbBalloon *other = &twin.balloon;
    uint16_t next;
    uint32_t then, id;
    random = random * 6364136223846793005ull + 1442695040888963407ull;
    switch (may_call ? random >> 32 & 0x7fff : 0x7fff) {
    case 0:
        EXPECT(vb_set_status(balloon, 0, &then) == reference_set_status(other, 0, &then));
        break;
    case 1:
        EXPECT(vb_stop_queue(balloon, notice->kind, &next) ==
               reference_stop_queue(other, notice->kind, &next));
        break;
    case 2:
        EXPECT(vb_start_queue(balloon, regions, count, notice->kind, there) ==
               reference_start_queue(other, regions, count, notice->kind, there));
        break;
    case 3:
        EXPECT(vb_begin_hints(&balloon->device, &id) == reference_begin_hints(&other->device, &id));
        break;
    case 4:
        vb_end_hints(&balloon->device), reference_end_hints(&other->device);
        break;
    case 5:
        EXPECT(vb_stop_queue(balloon, (notice->kind + 1) % VB_NO_KIND, &next) ==
               reference_stop_queue(other, (notice->kind + 1) % VB_NO_KIND, &next));
        break;
    default:
        return;
    }
    calls_between++;
    may_call = false;
    EXPECT((vb_recheck(notice, balloon) == 0) == (reference_recheck(&twin.notice, other) == 0));
}

/* Hands over the next thing, or all that is left; pages that were named are seen before their chain
 * is given back. */
static uint32_t hand_over(VbNotice *notice)
{
    uint32_t now = said.splits ? said.left & -said.left : said.left;
    said.left &= ~now;
    if (now == VB_GIVE_BACK && names)
        see_pages(notice->kind);
    return notice->what = now;
}

static uint32_t explain(VbNotice *notice, const VbBalloon *balloon, const VbRegion *regions,
                        size_t count, const VbRoom *room)
{
    said.whole = said.left = notice->what;
    expect_what(notice, balloon, regions, count, room);
    return hand_over(notice);
}

static void begin_twin(const VbBalloon *balloon)
{
    twin.balloon = *balloon;
    names = false;
    said.splits = !said.splits;
}

uint32_t __wrap_vb_begin(VbNotice *notice, VbBalloon *balloon, const VbRegion *regions,
                         size_t count, VbRoom *room, uint32_t kind, uint32_t chains, uint32_t pages,
                         uint32_t keeps)
{
    begin_twin(balloon);
    reference_begin(&twin.notice, &twin.balloon, regions, count, &twin.room, kind, chains, pages,
                    keeps);
    EXPECT(__real_vb_begin(notice, balloon, regions, count, room, kind, chains, pages, keeps) ==
           notice->what);
    return explain(notice, balloon, regions, count, room);
}

uint32_t __wrap_vb_give_held(VbNotice *notice, VbBalloon *balloon, const VbRegion *regions,
                             size_t count, VbRoom *room, uint32_t kind)
{
    begin_twin(balloon);
    reference_give_held(&twin.notice, &twin.balloon, regions, count, &twin.room, kind);
    EXPECT(__real_vb_give_held(notice, balloon, regions, count, room, kind) == notice->what);
    return explain(notice, balloon, regions, count, room);
}

uint32_t __wrap_vb_go_on(VbNotice *notice, VbBalloon *balloon, const VbRegion *regions,
                         size_t count, VbRoom *room, uint16_t answer)
{
    if (said.left)
        return hand_over(notice);
    notice->what = said.whole;
    if (said.whole & VB_GIVE_BACK && names)
        see_pages(notice->kind);
    if (said.whole & VB_COPY)
        changed += memcmp(room->bytes + notice->into, balloon_at(&guest.balloon, notice->at),
                          notice->length) != 0;
    memcpy(twin.room.bytes, room->bytes, sizeof room->bytes);
    call_between(notice, balloon, regions, count);
    reference_go_on(&twin.notice, &twin.balloon, regions, count, &twin.room, answer);
    EXPECT(__real_vb_go_on(notice, balloon, regions, count, room, answer) == notice->what);
    return explain(notice, balloon, regions, count, room);
}
