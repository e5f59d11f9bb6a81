/* The set of the pages in the balloon. */
#include "test.h"

/* Calls on one set of four words, one after the other: kind, two runs, the answer, and the set
 * then. */
static void pages_are_marked(void)
{
    static const struct {
        uint32_t kind;
        VbRun runs[2];
        VbMarked answer;
        uint64_t set[4];
    } rows[] = {
        {VB_INFLATE, {{3, 1}, {5, 2}}, {VB_OK, 3}, {0x68, 0, 0, 0}},
        {VB_INFLATE, {{4, 3}, {4, 1}}, {VB_OK, 1}, {0x78, 0, 0, 0}},
        {VB_INFLATE, {{62, 4}, {255, 1}}, {VB_OK, 5}, {0xc000000000000078, 3, 0, 1ull << 63}},
        {VB_INFLATE,
         {{128, 64}, {9, 0}},
         {VB_OK, 64},
         {0xc000000000000078, 3, UINT64_MAX, 1ull << 63}},
        {VB_DEFLATE,
         {{UINT32_MAX, 0}, {9, 1}},
         {VB_OK, 0},
         {0xc000000000000078, 3, UINT64_MAX, 1ull << 63}},
        {VB_INFLATE,
         {{9, 1}, {256, 1}},
         {VB_BAD_ARGUMENT, 0},
         {0xc000000000000078, 3, UINT64_MAX, 1ull << 63}},
        {VB_DEFLATE,
         {{3, 1}, {255, 2}},
         {VB_BAD_ARGUMENT, 0},
         {0xc000000000000078, 3, UINT64_MAX, 1ull << 63}},
        {VB_DEFLATE,
         {{UINT32_MAX, UINT32_MAX}, {3, 1}},
         {VB_BAD_ARGUMENT, 0},
         {0xc000000000000078, 3, UINT64_MAX, 1ull << 63}},
        {VB_STATISTICS,
         {{9, 1}, {10, 1}},
         {VB_NO_QUEUE, 0},
         {0xc000000000000078, 3, UINT64_MAX, 1ull << 63}},
        {VB_REPORT,
         {{9, 1}, {256, 1}},
         {VB_NO_QUEUE, 0},
         {0xc000000000000078, 3, UINT64_MAX, 1ull << 63}},
        {VB_NO_KIND,
         {{9, 1}, {10, 1}},
         {VB_NO_QUEUE, 0},
         {0xc000000000000078, 3, UINT64_MAX, 1ull << 63}},
        {VB_DEFLATE,
         {{2, 3}, {65, 1}},
         {VB_OK, 3},
         {0xc000000000000060, 1, UINT64_MAX, 1ull << 63}},
        {VB_DEFLATE, {{140, 53}, {131, 20}}, {VB_OK, 61}, {0xc000000000000060, 1, 7, 1ull << 63}},
        {VB_INFLATE,
         {{0, 256}, {17, 200}},
         {VB_OK, 247},
         {UINT64_MAX, UINT64_MAX, UINT64_MAX, UINT64_MAX}},
        {VB_DEFLATE, {{0, 255}, {1, 255}}, {VB_OK, 256}, {0, 0, 0, 0}},
    };
    uint64_t set[4] = {0};
    for (size_t i = 0; i < sizeof rows / sizeof rows[0]; i++) {
        VbMarked marked = vb_mark(rows[i].kind, rows[i].runs, 2, set, 4);
        EXPECT(marked.code == rows[i].answer.code && marked.pages == rows[i].answer.pages);
        EXPECT(memcmp(set, rows[i].set, sizeof set) == 0);
    }
    const uint64_t some[] = {1ull << 63 | 0x40, 1, 1ull << 63}; /* pages 6, 63, 64 and 191 */
    EXPECT(vb_count_ballooned(some, 3) == 4 && vb_count_ballooned(NULL, 0) == 0);
    EXPECT(vb_is_ballooned(some, 3, 6) == 1 && vb_is_ballooned(some, 3, 7) == 0 &&
           vb_is_ballooned(some, 3, 63) == 1);
    EXPECT(vb_is_ballooned(some, 3, 191) == 1 && vb_is_ballooned(some, 2, 191) == 0 &&
           !vb_is_ballooned(NULL, 0, 0));
    EXPECT(vb_is_ballooned(some, 3, 192) == 0 && vb_is_ballooned(some, 3, UINT32_MAX) == 0);
    EXPECT(vb_mark(VB_INFLATE, rows[0].runs, 0, NULL, 0).code == VB_OK);
}

/* The pages of one set leave another: those that both have, in the words that both have. */
static void pages_leave(void)
{
    const uint64_t pages[] = {1ull << 63 | 0x40, 1, 1ull << 63}; /* pages 6, 63, 64 and 191 */
    uint64_t set[] = {UINT64_MAX, 7, 1}, other[] = {UINT64_MAX, 7, 1};
    EXPECT(vb_unmark(pages, 3, set, 3) == 3 && set[0] == (UINT64_MAX >> 1 & ~0x40ull) &&
           set[1] == 6 && set[2] == 1);
    EXPECT(vb_unmark(pages, 3, set, 3) == 0 && set[1] == 6);
    EXPECT(vb_unmark(pages, 3, other, 1) == 2 && other[0] == set[0] && other[1] == 7);
    EXPECT(vb_unmark(pages, 1, other, 3) == 0 && vb_unmark(pages, 2, other, 3) == 1 &&
           other[1] == 6);
    EXPECT(vb_unmark(NULL, 0, other, 3) == 0 && vb_unmark(pages, 3, NULL, 0) == 0 && other[2] == 1);
}

#ifndef RUST_SHIM
/* Pages are in the set when a monitor is told of them. */
static void expect_in_set(void *context, uint32_t kind, const VbRun *runs, uint32_t count)
{
    const struct guest *guest = context;
    for (uint32_t i = 0; i < count && runs[i].first < 64 * guest->balloon.ballooned_words; i++)
        EXPECT(vb_is_ballooned(guest->balloon.ballooned, guest->balloon.ballooned_words,
                               runs[i].first) == (kind == VB_INFLATE));
}
#endif

/* What a monitor's own words say after requests: pages come and go, one named twice, none of a
 * report's, none after a reset; a page past the words changes nothing there, and is served all the
 * same. */
static void the_set_is_kept(void)
{
    static struct guest guest;
    static uint64_t words[96]; /* 6144 pages, to the end of memory */
    const uint32_t pages[] = {600, 601, 602, 640, 600, 5000}, back[] = {601, 700},
                   past[] = {64, 128};
    start(&guest, 0, REFUSES, LINUX_FEATURES, 8);
    struct balloon *balloon = &guest.balloon;
    EXPECT(balloon->ballooned == NULL);
    name_pages(&guest, VB_INFLATE, pages, 2);
    struct balloon_result result = balloon_notify(balloon, VB_INFLATE);
    EXPECT(result.chains == 1 && result.marked == 0 && result.unmarked == 0); /* none is kept */
    balloon->ballooned = words;
    balloon->ballooned_words = 96;
#ifndef RUST_SHIM
    balloon->context = &guest;
    balloon->on_pages = expect_in_set;
#endif
    name_pages(&guest, VB_INFLATE, pages, 6);
    result = balloon_notify(balloon, VB_INFLATE);
    EXPECT(result.code == VB_OK && result.pages == 6 && result.marked == 5 && result.unmarked == 0);
    EXPECT(words[9] == 7ull << 24 && words[10] == 1 && words[78] == 1 << 8 &&
           vb_count_ballooned(words, 96) == 5);
    name_pages(&guest, VB_DEFLATE, back, 2);
    result = balloon_notify(balloon, VB_DEFLATE);
    EXPECT(result.code == VB_OK && result.pages == 2 && result.marked == 1 &&
           words[9] == 5ull << 24);
    balloon->on_pages = NULL;
    describe(&guest, VB_REPORT, 0, 650 * 4096, 8192, WRITE, 0);
    publish(&guest, VB_REPORT, 0);
    result = balloon_notify(balloon, VB_REPORT);
    EXPECT(result.pages == 2 && result.marked == 0 && result.unmarked == 0 &&
           vb_count_ballooned(words, 96) == 4);
    balloon->ballooned_words = 2; /* too few: pages 0 to 127 */
    name_pages(&guest, VB_INFLATE, past, 2);
    result = balloon_notify(balloon, VB_INFLATE);
    EXPECT(result.code == VB_OK && result.discarded == 2 && result.marked == 0 &&
           result.unmarked == 2 && words[1] == 0);
    balloon->ballooned_words = 96;
    EXPECT(balloon_write_status(balloon, 1, &result) != 0 && vb_count_ballooned(words, 96) == 4);
    EXPECT(result.chains == 0);
    EXPECT(balloon_write_status(balloon, 15, &result) == 0 && vb_count_ballooned(words, 96) == 4);
    EXPECT(balloon_write_status(balloon, 0, &result) == 0 && vb_count_ballooned(words, 96) == 0);
    free_memory(&guest);
}

void test_set(void)
{
    RUN(pages_are_marked());
    RUN(pages_leave());
    RUN(the_set_is_kept());
}
