/* Calls on a balloon amid a notice: between two steps, and in a hook. */
#include "amid.h"

/* The Rust crate as the same calls leaves `places` of the struct alone, which these tests hand to
 * the library. */
#ifdef RUST_SHIM
void test_amid(void)
{
}
#else
struct guest amid;
static uint16_t used_before;

void open_round(void)
{
    uint32_t id;
    EXPECT(balloon_begin_hints(&amid.balloon, &id) == VB_OK);
    put(&amid, buffer_of(VB_HINT), id, 4);
    describe(&amid, VB_HINT, 7, buffer_of(VB_HINT), 4, 0, 0);
    publish(&amid, VB_HINT, 7);
    EXPECT(balloon_notify(&amid.balloon, VB_HINT).chains == 1 &&
           vb_hints_open(&amid.balloon.state.device));
}

uint32_t used_since(uint32_t kind)
{
    return (uint16_t)(used_index(&amid, kind) - used_before);
}

void offer(uint32_t kind)
{
    start(&amid, 0, WITH_HINTS, WITH_HINTS.offered, 8);
    if (kind == VB_HINT)
        open_round();
    used_before = used_index(&amid, kind);
    memset(at(&amid, FIRST * 4096), BYTE, COUNT * 4096);
    for (uint32_t i = 0; i < COUNT; i++)
        put(&amid, buffer_of(kind) + 4 * i, FIRST + i, 4);
    for (uint16_t i = 0; i < 2; i++) {
        if (kind == VB_HINT || kind == VB_REPORT)
            describe(&amid, kind, i, FIRST * 4096, COUNT * 4096, WRITE, 0);
        else
            describe(&amid, kind, i, buffer_of(kind), kind == VB_STATISTICS ? 10 : 4 * COUNT, 0, 0);
        publish(&amid, kind, i);
    }
}

bool are_whole(void)
{
    for (uint32_t page = FIRST; page < FIRST + COUNT; page++)
        if (get(&amid, page * 4096ull + 9, 1) != BYTE)
            return false;
    return true;
}

void starts_again(void)
{
    VbDevice *device = &amid.balloon.state.device;
    uint8_t bytes[VB_STATE_BYTES];
    EXPECT(device->status == 0 &&
           vb_save(device, amid.balloon.state.held, bytes, sizeof bytes) == VB_OK);
    EXPECT(vb_write_status(device, 1) == 0 && device->status == 1);
}

/* ---- what happens amid a notice of a kind's queue */

static uint8_t saved[VB_STATE_BYTES];

static void reset_device(uint32_t kind)
{
    uint32_t then;
    (void)kind;
    EXPECT(vb_set_status(&amid.balloon.state, 0, &then) == 0);
}

static void fail_device(uint32_t kind)
{
    uint32_t then;
    (void)kind;
    EXPECT(vb_set_status(&amid.balloon.state, 15 | 128, &then) == 0);
}

static void stop_queue(uint32_t kind)
{
    uint16_t next;
    EXPECT(vb_stop_queue(&amid.balloon.state, kind, &next) == VB_OK);
}

/* The queue starts at this place and index. */
static void start_at(uint32_t kind, uint64_t table, uint16_t next)
{
    const VbQueueStart there = {table, avail_of(kind), used_of(kind), 8, next};
    EXPECT(vb_start_queue(&amid.balloon.state, amid.balloon.places, 2, kind, there) == VB_OK);
}

static void start_elsewhere(uint32_t kind)
{
    start_at(kind, 0x60000, ring_of_kind(&amid.balloon, kind)->next_avail);
}

static void start_further(uint32_t kind)
{
    start_at(kind, table_of(kind), 77);
}

/* Of before the notice. */
static void restore_saved(uint32_t kind)
{
    (void)kind;
    EXPECT(vb_restore_over(&amid.balloon.state, amid.balloon.places, 2, saved, sizeof saved) ==
           VB_OK);
}

/* Another notice of the queue, by a balloon of its own, so that the notice amid which this is
 * stays. */
static void serve_beside(uint32_t kind)
{
    static VbNotice notice;
    static VbRoom room;
    struct guest other = amid;
    struct balloon_result result = {0};
    uint32_t what =
        vb_begin(&notice, &amid.balloon.state, amid.balloon.places, 2, &room, kind, 9, 99, 1);
    while (what) {
        other.balloon.notice = notice, other.balloon.room = room,
        other.balloon.state = amid.balloon.state;
        uint16_t answer = balloon_perform(&other.balloon, what, &result);
        room = other.balloon.room;
        what = vb_go_on(&notice, &amid.balloon.state, amid.balloon.places, 2, &room, answer);
    }
}

static void move_another(uint32_t kind)
{
    uint16_t next;
    vb_set_target(&amid.balloon.state.device, 9);
    EXPECT(vb_stop_queue(&amid.balloon.state, (kind + 1) % VB_NO_KIND, &next) == VB_OK);
}

/* The first of them make each notice stale. */
static void (*const EVENTS[])(uint32_t kind) = {reset_device,    fail_device,   stop_queue,
                                                start_elsewhere, start_further, restore_saved,
                                                serve_beside,    move_another};
enum { EVENT_COUNT = sizeof EVENTS / sizeof *EVENTS, RESET = 0, MAY_BE = 5 };

static bool same_state(const VbBalloon *one, const VbBalloon *other)
{
    return one->device.status == other->device.status &&
           one->device.features == other->device.features &&
           same_queue(&one->device.inflate, &other->device.inflate) &&
           same_queue(&one->device.deflate, &other->device.deflate) &&
           same_queue(&one->device.statistics, &other->device.statistics) &&
           same_queue(&one->device.hint, &other->device.hint) &&
           same_queue(&one->device.report, &other->device.report) &&
           memcmp(&one->device.round, &other->device.round, sizeof one->device.round) == 0 &&
           memcmp(&one->held, &other->held, sizeof one->held) == 0;
}

/* ---- between two steps */

/* A notice of the kind's queue after this many of its steps; what is to be done then. */
static uint32_t go_steps(uint32_t kind, unsigned steps)
{
    struct balloon *it = &amid.balloon;
    struct balloon_result result = {0};
    uint32_t what = vb_begin(&it->notice, &it->state, it->places, 2, &it->room, kind, 9, 99, 0);
    for (; what && steps > 0; steps--)
        what = vb_go_on(&it->notice, &it->state, it->places, 2, &it->room,
                        balloon_perform(it, what, &result));
    return what;
}

/* An event after some steps: a stale notice ends, changes nothing and asks for nothing; another one
 * continues. */
static bool happens(uint32_t kind, unsigned steps, unsigned event)
{
    struct balloon *it = &amid.balloon;
    offer(kind);
    EXPECT(vb_save(&it->state.device, it->state.held, saved, sizeof saved) == VB_OK);
    uint32_t what = go_steps(kind, steps);
    const VbQueue before = *ring_of_kind(it, kind);
    if (!what)
        return false;
    EVENTS[event](kind);
    bool stale = it->state.device.status != 15 || !same_queue(&before, ring_of_kind(it, kind));
    EXPECT(stale ? event < EVENT_COUNT - 1 : event >= MAY_BE);
    VbBalloon left = it->state;
    EXPECT(vb_recheck(&it->notice, &it->state) == (stale ? 0 : what));
    what = vb_go_on(&it->notice, &it->state, it->places, 2, &it->room, 0);
    EXPECT((what == 0 && it->notice.code == VB_STALE) == stale);
    EXPECT(!stale || (same_state(&left, &it->state) && it->notice.rule == 0 &&
                      !it->notice.interrupt && !it->notice.configuration && !it->notice.more));
    if (stale)
        EXPECT(vb_go_on(&it->notice, &it->state, it->places, 2, &it->room, 0) == 0 &&
               it->notice.code == VB_STALE && same_state(&left, &it->state));
    if (event == RESET)
        starts_again();
    free_memory(&amid);
    return true;
}

static void a_stale_notice_ends(void)
{
    for (uint32_t kind = 0; kind < VB_NO_KIND; kind++)
        for (unsigned event = 0; event < EVENT_COUNT; event++) {
            unsigned steps = 0;
            while (happens(kind, steps, event))
                steps++;
            EXPECT(steps >= (kind == VB_STATISTICS ? 4 : 6));
            free_memory(&amid);
        }
}

/* ---- hints, more of whose parts are discarded than are listed at once */

static void end_round(void)
{
    vb_end_hints(&amid.balloon.state.device);
}

static void begin_another(void)
{
    uint32_t id;
    EXPECT(vb_begin_hints(&amid.balloon.state.device, &id) == VB_OK);
}

static int keep(void *context, const struct balloon_region *region, uint64_t from, uint64_t length)
{
    (void)context, (void)region, (void)from, (void)length;
    return 0;
}

/* A guest whose low memory is 16 regions, so that a chain of 32 hints has more parts than are
 * listed at once. */
static void offer_many_parts(void)
{
    static struct balloon_region regions[16];
    const uint64_t length = LOW_MIB * MIB / 16;
    struct balloon_result result;
    make_memory(&amid, 0);
    for (uint64_t i = 0; i < 16; i++)
        regions[i] = (struct balloon_region){
            i * length,         length,     amid.regions[0].host + i * length,
            amid.regions[0].fd, i * length, 0};
    EXPECT(balloon_init(&amid.balloon, regions, 16, WITH_HINTS) == VB_OK);
    amid.balloon.discard = keep;
    start_features(&amid, WITH_HINTS.offered, 32);
    EXPECT(balloon_write_status(&amid.balloon, 15, &result) == 0);
    open_round();
    for (uint16_t i = 0; i < 32; i++)
        describe(&amid, VB_HINT, i, MIB, (LOW_MIB - 1) * MIB, WRITE | (i < 31 ? NEXT : 0),
                 (uint16_t)(i + 1));
    publish(&amid, VB_HINT, 0);
}

static uint32_t next_of(uint32_t what, struct balloon_result *result)
{
    struct balloon *it = &amid.balloon;
    return vb_go_on(&it->notice, &it->state, it->places, 16, &it->room,
                    what ? balloon_perform(it, what, result) : 0);
}

/* The round ends once the first 256 parts of a chain were discarded: the others stay, and the chain
 * is given back. */
static void a_long_hint_is_left(void (*event)(void))
{
    struct balloon *it = &amid.balloon;
    struct balloon_result result = {0};
    offer_many_parts();
    uint32_t what = vb_begin(&it->notice, &it->state, it->places, 16, &it->room, VB_HINT, 9, 99, 0);
    while (!(what & VB_DISCARD))
        EXPECT((what = next_of(what, &result)) != 0);
    EXPECT(it->notice.cuts == 256 && !(what & VB_GIVE_BACK));
    balloon_perform(it, what, &result);
    event();
    EXPECT(vb_recheck(&it->notice, &it->state) == (what & ~(uint32_t)VB_DISCARD));
    what = next_of(0, &result);
    EXPECT(!(what & VB_DISCARD) && what & VB_GIVE_BACK);
    while (what)
        what = next_of(what, &result);
    EXPECT(it->notice.code == VB_OK && used_index(&amid, VB_HINT) == 2);
    free_memory(&amid);
}

void test_amid(void)
{
    RUN(a_stale_notice_ends());
    RUN(a_long_hint_is_left(end_round));
    RUN(a_long_hint_is_left(begin_another));
}
#endif
