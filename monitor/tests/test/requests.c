/* Requests: pages go and come, as runs, from buffers split at arbitrary offsets, while indices
 * wrap. */
#include "test.h"

/* 256 pages go and come: those and no others are discarded, in memory of each sort. */
static void pages_go_and_come(int low)
{
    static struct guest guest;
    uint32_t pages[256];
    start(&guest, low, REFUSES, LINUX_FEATURES, 128);
    for (uint32_t i = 0; i < 256; i++)
        pages[i] = 500 + 3 * i;
    for (uint32_t page = 499; page < 500 + 3 * 256; page++)
        memset(at(&guest, page * 4096ull), (int)(page % 251) + 1, 4096);
    name_pages(&guest, VB_INFLATE, pages, 256);
    struct balloon_result result = balloon_notify(&guest.balloon, VB_INFLATE);
    EXPECT(result.code == VB_OK && result.chains == 1 && result.pages == 256 &&
           result.discarded == 256);
    EXPECT(result.interrupts == 1 << VB_INFLATE && !result.more && !result.configuration &&
           result.kept == 0);
    EXPECT(used_index(&guest, VB_INFLATE) == 1 && last_used(&guest, VB_INFLATE) == 0);
    for (uint32_t page = 499; page < 500 + 3 * 256; page++)
        EXPECT(resident(&guest, page) == (page % 3 != 2));
    for (uint32_t page = 499; page < 500 + 3 * 256; page++) {
        const uint8_t *bytes = at(&guest, page * 4096ull),
                      byte = page % 3 != 2 ? page % 251 + 1 : 0;
        for (int i = 0; i < 4096; i++)
            EXPECT(bytes[i] == byte);
    }
    EXPECT(balloon_notify(&guest.balloon, VB_INFLATE).code == VB_NOTHING);
    memset(at(&guest, 500 * 4096), 9, 4096);
    name_pages(&guest, VB_DEFLATE, pages, 256);
    result = balloon_notify(&guest.balloon, VB_DEFLATE);
    EXPECT(result.code == VB_OK && result.pages == 256 && result.discarded == 0 &&
           *at(&guest, 500 * 4096) == 9);
    EXPECT(result.interrupts == 1 << VB_DEFLATE && used_index(&guest, VB_DEFLATE) == 1);
    free_memory(&guest);
}

void see_pages(void *context, uint32_t kind, const VbRun *runs, uint32_t count)
{
    struct seen *seen = context;
    seen->kind = kind;
    seen->runs = count;
    seen->calls++;
    memcpy(seen->run, runs, count * sizeof *runs);
}

/* A number that follows the last run, or is right before it, joins it. */
static void neighbours_are_joined(void)
{
    static struct guest guest;
    static struct seen seen;
    const uint32_t pages[] = {505, 506, 507, 503, 502, 501, 509, 510, 508, 600};
    const VbRun runs[] = {{505, 3}, {501, 3}, {508, 3}, {600, 1}};
    uint32_t down[256];
    start(&guest, 0, REFUSES, LINUX_FEATURES, 256);
    guest.balloon.context = &seen;
    guest.balloon.on_pages = see_pages;
    name_pages(&guest, VB_INFLATE, pages, 10);
    EXPECT(balloon_notify(&guest.balloon, VB_INFLATE).pages == 10);
    EXPECT(seen.kind == VB_INFLATE && seen.runs == 4 && memcmp(seen.run, runs, sizeof runs) == 0);
    for (uint32_t i = 0; i < 256; i++)
        down[i] = 1000 - i;
    name_pages(&guest, VB_DEFLATE, down, 256);
    EXPECT(balloon_notify(&guest.balloon, VB_DEFLATE).pages == 256);
    EXPECT(seen.kind == VB_DEFLATE && seen.runs == 1 && seen.run[0].first == 745 &&
           seen.run[0].count == 256);
    free_memory(&guest);
}

/* A request's bytes in pieces that cut its numbers, one of them empty. */
static void requests_are_cut_anyhow(void)
{
    static struct guest guest;
    static struct seen seen;
    const uint64_t bytes = buffer_of(VB_INFLATE);
    start(&guest, 0, REFUSES, LINUX_FEATURES, 8);
    guest.balloon.context = &seen;
    guest.balloon.on_pages = see_pages;
    put(&guest, bytes, 0x1234567890abcdef, 8);
    put(&guest, bytes, 700, 3);
    put(&guest, 8 * MIB - 1, 0, 1);
    put(&guest, 0x40000, 0x04d2, 4);
    describe(&guest, VB_INFLATE, 5, bytes, 3, NEXT | 0xfff8, 2);
    describe(&guest, VB_INFLATE, 2, 8 * MIB - 1, 1, NEXT, 7);
    describe(&guest, VB_INFLATE, 7, 0x123, 0, NEXT, 0);
    describe(&guest, VB_INFLATE, 0, 0x40000, 4, 0, 9);
    publish(&guest, VB_INFLATE, 5);
    struct balloon_result result = balloon_notify(&guest.balloon, VB_INFLATE);
    EXPECT(result.code == VB_OK && result.pages == 2 && seen.runs == 2);
    EXPECT(seen.run[0].first == 700 && seen.run[1].first == 1234);
    EXPECT(get(&guest, used_of(VB_INFLATE) + 4, 4) == 5 && used_index(&guest, VB_INFLATE) == 1);
    free_memory(&guest);
}

/* Indices wrap at 65,536, on the least queue; no interrupt is asked for. */
static void indices_wrap(void)
{
    static struct guest guest;
    const uint32_t page = 900;
    start(&guest, 0, REFUSES, LINUX_FEATURES, 2);
    put(&guest, avail_of(VB_DEFLATE), 1, 2);
    for (uint32_t i = 1; i <= 70000; i++) {
        name_pages(&guest, VB_DEFLATE, &page, 1);
        struct balloon_result result = balloon_notify(&guest.balloon, VB_DEFLATE);
        EXPECT(result.code == VB_OK && result.chains == 1 && result.interrupts == 0);
        EXPECT(used_index(&guest, VB_DEFLATE) == (uint16_t)i);
    }
    free_memory(&guest);
}

void test_requests(void)
{
    RUN(pages_go_and_come(0));
    RUN(pages_go_and_come(BALLOON_SHARED));
    RUN(pages_go_and_come(BALLOON_PRIVATE));
    RUN(neighbours_are_joined());
    RUN(requests_are_cut_anyhow());
    RUN(indices_wrap());
}
