/* Holes, and pages that aren't there. */
#include "test.h"

static void holes_are_skipped(void)
{
    static struct guest guest;
    struct balloon *balloon = &guest.balloon;
    const uint32_t last = 2047, hole = 2048, next = 4096,
                   pages[] = {last, hole, hole + 1, 4095, next, 3000};
    struct balloon_result result;
    start(&guest, BALLOON_SHARED, REFUSES, LINUX_FEATURES, 8);
    memset(at(&guest, (last - 1) * 4096), 1, 2 * 4096);
    memset(at(&guest, next * 4096), 1, 2 * 4096);
    name_pages(&guest, VB_INFLATE, pages, 6);
    result = balloon_notify(balloon, VB_INFLATE);
    EXPECT(result.code == VB_OK && result.pages == 6 && result.discarded == 2 &&
           result.in_holes == 4);
    EXPECT(resident(&guest, last - 1) && !resident(&guest, last));
    EXPECT(!resident(&guest, next) && resident(&guest, next + 1));
    describe(&guest, VB_REPORT, 0, last * 4096, 2050 * 4096, WRITE, 0); /* over the whole hole */
    memset(at(&guest, last * 4096), 1, 4096);
    memset(at(&guest, next * 4096), 1, 4096);
    publish(&guest, VB_REPORT, 0);
    result = balloon_notify(balloon, VB_REPORT);
    EXPECT(result.pages == 2050 && result.discarded == 2 && result.in_holes == 2048);
    EXPECT(!resident(&guest, last) && !resident(&guest, next) && resident(&guest, next + 1));
    describe(&guest, VB_INFLATE, 0, 8 * MIB - 2, 4, 0, 0); /* a buffer half in the hole */
    publish(&guest, VB_INFLATE, 0);
    result = balloon_notify(balloon, VB_INFLATE);
    EXPECT(result.code == VB_BROKEN && result.rule == 6 && result.configuration &&
           result.chains == 0);
    EXPECT(used_index(&guest, VB_INFLATE) == 1 &&
           balloon_notify(balloon, VB_INFLATE).code == VB_NEEDS_RESET);
    start_features(&guest, LINUX_FEATURES, 8);
    EXPECT(balloon_place(balloon, VB_INFLATE, 9 * MIB, 0x11000, 0x12000, 8) == VB_MISPLACED);
    EXPECT(balloon_place(balloon, VB_INFLATE, 0x10000, 8 * MIB - 20, 0x12000, 8) == VB_MISPLACED);
    EXPECT(balloon_place(balloon, VB_INFLATE, 0x10000, 0x11000, 8 * MIB - 68, 8) == VB_MISPLACED);
    EXPECT(balloon->state.device.inflate.table == table_of(VB_INFLATE));
    free_memory(&guest);
}

static void wrong_pages_are_refused(uint32_t page, uint32_t rule)
{
    static struct guest guest;
    const uint32_t pages[] = {600, page, 601};
    VbSettings settings = REFUSES;
    settings.reserved_pages = 16;
    start(&guest, 0, settings, LINUX_FEATURES, 8);
    memset(at(&guest, 600 * 4096), 1, 2 * 4096);
    name_pages(&guest, VB_INFLATE, pages, 3);
    struct balloon_result result = balloon_notify(&guest.balloon, VB_INFLATE);
    EXPECT(result.code == VB_BROKEN && result.rule == rule && result.configuration &&
           result.discarded == 0);
    EXPECT(resident(&guest, 600) && resident(&guest, 601) &&
           guest.balloon.state.device.status == (15 | 64));
    EXPECT(used_index(&guest, VB_INFLATE) == 0 &&
           guest.balloon.state.device.inflate.next_avail == 0);
    result = balloon_notify(&guest.balloon, VB_INFLATE);
    EXPECT(result.code == VB_NEEDS_RESET && !result.configuration);
    start_features(&guest, LINUX_FEATURES, 8);
    EXPECT(balloon_write_status(&guest.balloon, 15, &result) == 0);
    name_pages(&guest, VB_INFLATE, pages, 1);
    EXPECT(balloon_notify(&guest.balloon, VB_INFLATE).discarded == 1 && !resident(&guest, 600));
    free_memory(&guest);
}

static void wrong_pages_are_skipped(void)
{
    static struct guest guest;
    const uint32_t pages[] = {600, 6144, 16, UINT32_MAX, 15, 601, 0, 6143};
    VbSettings settings = SKIPS;
    settings.reserved_pages = 16;
    settings.memory_end = 24ull * MIB + 4095; /* the last part of a page doesn't count */
    start(&guest, 0, settings, LINUX_FEATURES, 8);
    memset(at(&guest, 600 * 4096), 1, 2 * 4096);
    memset(at(&guest, 6143ull * 4096), 1, 4096);
    name_pages(&guest, VB_INFLATE, pages, 8);
    struct balloon_result result = balloon_notify(&guest.balloon, VB_INFLATE);
    EXPECT(result.code == VB_OK && result.pages == 4 && result.skipped == 4 &&
           result.discarded == 4);
    EXPECT(!resident(&guest, 600) && !resident(&guest, 601) && !resident(&guest, 6143));
    EXPECT(used_index(&guest, VB_INFLATE) == 1 && guest.balloon.state.device.status == 15);
    free_memory(&guest);
}

void test_holes(void)
{
    RUN(holes_are_skipped());
    RUN(wrong_pages_are_refused(6144, 9));
    RUN(wrong_pages_are_refused(UINT32_MAX, 9));
    RUN(wrong_pages_are_refused(15, 10));
    RUN(wrong_pages_are_refused(0, 10));
    RUN(wrong_pages_are_skipped());
}
