/* What a balloon is made with, with any bytes in its place before, and what results of several
 * queues come to. */
#include "test.h"

/* Each of two settings does what it is for, beside the other one and without it. */
static void settings_are_for_themselves(void)
{
    const uint32_t pages[] = {600, 9999}; /* the second one is past the end */
    for (uint8_t both = 0; both < 4; both++) {
        static struct guest guest;
        struct balloon_result result;
        const bool needs = both & 1, skips = both & 2;
        const VbSettings settings = {
            .offered = LINUX_FEATURES, .needs_must_tell = needs, .skips_bad_pages = skips};
        make_memory(&guest, 0);
        EXPECT(balloon_init(&guest.balloon, guest.regions, 2, settings) == VB_OK);
        EXPECT(balloon_write_status(&guest.balloon, 1, &result) == 0 &&
               balloon_write_status(&guest.balloon, 3, &result) == 0);
        EXPECT(balloon_negotiate(&guest.balloon, LINUX_FEATURES & ~(uint64_t)MUST_TELL_HOST) == 0 ||
               needs);
        EXPECT((balloon_write_status(&guest.balloon, 11, &result) == 0) == !needs);
        EXPECT(balloon_write_status(&guest.balloon, 0, &result) == 0);
        start_features(&guest, LINUX_FEATURES, 8);
        EXPECT(balloon_write_status(&guest.balloon, 15, &result) == 0);
        name_pages(&guest, VB_INFLATE, pages, 2);
        result = balloon_notify(&guest.balloon, VB_INFLATE);
        EXPECT(result.code == (skips ? VB_OK : VB_BROKEN) && result.skipped == skips &&
               result.chains == skips);
        EXPECT(result.rule == (skips ? 0 : 9));
        free_memory(&guest);
    }
}

#ifndef RUST_SHIM
/* A balloon is made again in any bytes. */
static void nothing_is_left_of_other_bytes(void)
{
    static struct guest guest;
    make_memory(&guest, 0);
    memset(&guest.balloon, 0xa5, sizeof guest.balloon);
    EXPECT(balloon_init(&guest.balloon, guest.regions, 2, SKIPS) == VB_OK);
    const struct balloon *it = &guest.balloon;
    EXPECT(!it->on_pages && !it->on_statistics && !it->discard && !it->context && !it->ballooned);
    EXPECT(it->ballooned_words == 0 && !it->keeps_pages && it->most_chains == BALLOON_MOST_CHAINS &&
           it->most_pages == UINT32_MAX);
    EXPECT(it->state.held.statistics == 0 && it->state.held.deflate == 0 && it->deflating == NULL &&
           it->notice.what == 0 && it->region_count == 2 && it->places[2].length == 0);
    memset(&guest.balloon, 0xa5, sizeof guest.balloon);
    EXPECT(balloon_init(&guest.balloon, guest.regions, BALLOON_MOST_REGIONS + 1, SKIPS) ==
           VB_BAD_ARGUMENT);
    EXPECT(it->region_count == 0 && !it->regions && !it->on_pages && !it->ballooned);
    free_memory(&guest);
}

/* What two queues come to together: a fault stays, whatever the other queue answers, before it or
 * after it. */
static void a_fault_stays(void)
{
    const struct {
        uint32_t first, rule, second, other;
        uint32_t code, told;
    } rows[] = {
        {VB_NOTHING, 0, VB_NOTHING, 0, VB_NOTHING, 0},
        {VB_NOTHING, 0, VB_OK, 0, VB_OK, 0},
        {VB_OK, 0, VB_NOTHING, 0, VB_OK, 0},
        {VB_OK, 0, VB_OK, 0, VB_OK, 0},
        {VB_BROKEN, 3, VB_OK, 0, VB_BROKEN, 3},
        {VB_BROKEN, 3, VB_NOTHING, 0, VB_BROKEN, 3},
        {VB_OK, 0, VB_BROKEN, 7, VB_BROKEN, 7},
        {VB_NOTHING, 0, VB_BROKEN, 7, VB_BROKEN, 7},
        {VB_BROKEN, 3, VB_BROKEN, 7, VB_BROKEN, 7},
        {VB_BROKEN, 3, VB_NEEDS_RESET, 0, VB_BROKEN, 3},
    };
    for (size_t i = 0; i < sizeof rows / sizeof rows[0]; i++) {
        struct balloon_result all = balloon_result_of(VB_NOTHING),
                              first = balloon_result_of(rows[i].first);
        struct balloon_result second = balloon_result_of(rows[i].second);
        first.rule = rows[i].rule;
        second.rule = rows[i].other;
        balloon_add_result(&all, &first);
        balloon_add_result(&all, &second);
        EXPECT(all.code == rows[i].code && all.rule == rows[i].told);
    }
}

/* All numbers of a result that count. */
/* clang-format off */
#define COUNTS(COUNT) \
    COUNT(chains) COUNT(held_pages) COUNT(pages) COUNT(discarded) COUNT(waiting) COUNT(skipped) \
    COUNT(late) COUNT(marked) COUNT(unmarked) COUNT(in_holes) COUNT(kept)
/* clang-format on */

/* What two queues count adds, what is to be told of either is told of both, and an error stays. */
static void results_add(void)
{
    struct balloon_result all = balloon_result_of(VB_NOTHING), one = balloon_result_of(VB_OK);
    const struct balloon_result nothing = balloon_result_of(VB_NOTHING);
    unsigned number = 0;
#define SET(name) all.name = 100 * ++number, one.name = number;
    COUNTS(SET)
    all.interrupts = 1, one.interrupts = 2, one.error = 5;
    one.configuration = one.more = one.held = true;
    balloon_add_result(&all, &one);
    balloon_add_result(&all, &nothing);
    number = 0;
#define HAS_ADDED(name) EXPECT(all.name == 101 * ++number);
    COUNTS(HAS_ADDED)
    EXPECT(all.interrupts == 3 && all.configuration && all.more && all.held && all.error == 5);
    _Static_assert(sizeof all == 104, "a count that is new is one of COUNTS, too");
}
#endif

void test_settings(void)
{
    RUN(settings_are_for_themselves());
#ifndef RUST_SHIM
    RUN(nothing_is_left_of_other_bytes());
    RUN(a_fault_stays());
    RUN(results_add());
#endif
}
