/* Reports of free pages, and those that keep their bytes. */
#include "test.h"

/* 32 blocks, as many and as large as Linux reports, one of them over the last page before the
  * hole. */
static void reports_are_discarded(void)
{
    static struct guest guest;
    static struct seen seen;
    start(&guest, 0, REFUSES, LINUX_FEATURES, 32);
    guest.balloon.context = &seen;
    guest.balloon.on_pages = see_pages;
    for (uint16_t i = 0; i < 32; i++)
        describe(&guest, VB_REPORT, i, (i % 2 ? 0 : HIGH_ADDRESS) + (64 + 60ull * i) * 4096,
                 (i + 1) * 4096u, WRITE | (i < 31 ? NEXT : 0), i + 1);
    for (uint16_t i = 0; i < 32; i++)
        memset(at(&guest, (i % 2 ? 0 : HIGH_ADDRESS) + (63 + 60ull * i) * 4096), 1,
               (i + 3) * 4096u);
    publish(&guest, VB_REPORT, 0);
    struct balloon_result result = balloon_notify_number(&guest.balloon, 3);
    EXPECT(result.code == VB_OK && result.pages == 528 && result.discarded == 528 &&
           seen.runs == 32);
    EXPECT(result.interrupts == 1 << VB_REPORT && used_index(&guest, VB_REPORT) == 1);
    for (uint32_t i = 0; i < 32; i++) {
        uint32_t first = (i % 2 ? 0 : (uint32_t)(HIGH_ADDRESS / 4096)) + 64 + 60 * i;
        EXPECT(resident(&guest, first - 1) && !resident(&guest, first) &&
               !resident(&guest, first + i));
        EXPECT(resident(&guest, first + i + 1));
        EXPECT(seen.run[i].first == first && seen.run[i].count == i + 1);
    }
    free_memory(&guest);
}

enum { SLICES = 16, SLICE = LOW_MIB * MIB / SLICES }; /* the low memory, in regions of one slice */

/* Counts bytes of slices that are discarded, each whole, one after the other and from the first one
 * again. */
static int discard_slice(void *context, const struct balloon_region *region, uint64_t at,
                         uint64_t length)
{
    uint64_t *calls = context;
    EXPECT(region->guest == *calls % SLICES * SLICE && at == 0 && length == SLICE);
    ++*calls;
    return 0;
}

/* A report of more parts than are discarded at once: each of its blocks has pages of all slices. */
static void a_report_of_many_parts(void)
{
    static struct guest guest;
    struct balloon_region slices[SLICES + 1];
    uint64_t calls = 0;
    start(&guest, 0, REFUSES, LINUX_FEATURES, 32);
    for (size_t i = 0; i < SLICES; i++)
        slices[i] = (struct balloon_region){
            i * SLICE, SLICE, guest.regions[0].host + i * SLICE, guest.regions[0].fd, i * SLICE, 0};
    slices[SLICES] = guest.regions[1];
    EXPECT(balloon_set_regions(&guest.balloon, slices, SLICES + 1) == VB_OK);
    guest.balloon.context = &calls;
    guest.balloon.discard = discard_slice;
    for (uint16_t i = 0; i < 32; i++)
        describe(&guest, VB_REPORT, i, 0, LOW_MIB * MIB, WRITE | (i < 31 ? NEXT : 0), i + 1);
    publish(&guest, VB_REPORT, 0);
    struct balloon_result result = balloon_notify(&guest.balloon, VB_REPORT);
    EXPECT(calls == 32 * SLICES && calls > VB_MAX_CUTS &&
           result.discarded == 32 * LOW_MIB * MIB / 4096);
    EXPECT(result.code == VB_OK && result.pages == result.discarded && result.chains == 1 &&
           used_index(&guest, VB_REPORT) == 1);
    EXPECT(balloon_set_regions(&guest.balloon, guest.regions, 2) == VB_OK);
    free_memory(&guest);
}

/* What a driver that poisons its free pages reports is told and given back, and keeps its bytes;
 * but not what it inflates, nor where its free pages hold zeros (init_on_free), nor where it didn't
 * negotiate PAGE_POISON. */
static void reports_keep_their_bytes(uint32_t poison, uint64_t features, bool kept)
{
    static struct guest guest;
    static struct seen seen;
    const VbSettings settings = {.offered = LINUX_FEATURES | VB_F_PAGE_POISON};
    const uint8_t bytes[16] = {[12] = (uint8_t)poison,
                               (uint8_t)(poison >> 8),
                               (uint8_t)(poison >> 16),
                               (uint8_t)(poison >> 24)};
    const uint32_t inflated = 900;
    memset(&seen, 0, sizeof seen);
    start(&guest, 0, settings, features, 8);
    guest.balloon.context = &seen;
    guest.balloon.on_pages = see_pages;
    EXPECT(balloon_write_config(&guest.balloon, 0, bytes, 16) == VB_OK); /* as QEMU does */
    describe(&guest, VB_REPORT, 0, 800 * 4096, 3 * 4096, WRITE, 0);
    memset(at(&guest, 800 * 4096), 0xaa, 3 * 4096);
    memset(at(&guest, inflated * 4096ull), 0xaa, 4096);
    publish(&guest, VB_REPORT, 0);
    struct balloon_result result = balloon_notify(&guest.balloon, VB_REPORT);
    EXPECT(result.code == VB_OK && result.chains == 1 && result.pages == 3 && result.error == 0 &&
           result.in_holes == 0);
    EXPECT(result.kept == (kept ? 3 : 0) && result.discarded == (kept ? 0 : 3));
    EXPECT(seen.runs == 1 && seen.run[0].first == 800 && seen.run[0].count == 3);
    EXPECT(used_index(&guest, VB_REPORT) == 1 && result.interrupts == 1 << VB_REPORT);
    for (uint32_t page = 800; page < 803; page++)
        EXPECT(get(&guest, page * 4096ull + 4095, 1) == (kept ? 0xaa : 0));
    name_pages(&guest, VB_INFLATE, &inflated, 1);
    result = balloon_notify(&guest.balloon, VB_INFLATE);
    EXPECT(result.discarded == 1 && result.kept == 0 && get(&guest, inflated * 4096ull, 1) == 0);
    free_memory(&guest);
}

void test_reports(void)
{
    RUN(reports_are_discarded());
    RUN(a_report_of_many_parts());
    RUN(reports_keep_their_bytes(0xaaaaaaaa, LINUX_FEATURES | VB_F_PAGE_POISON, true));
    RUN(reports_keep_their_bytes(1 << 24, LINUX_FEATURES | VB_F_PAGE_POISON, true));
    RUN(reports_keep_their_bytes(0, LINUX_FEATURES | VB_F_PAGE_POISON, false));
    RUN(reports_keep_their_bytes(0xaaaaaaaa, LINUX_FEATURES, false));
}
