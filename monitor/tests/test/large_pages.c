/* A machine whose pages are large. */
#include "test.h"
#include <linux/memfd.h>

enum { LARGE_MIB = 2, LARGE_PAGES = LARGE_MIB * MIB / 4096 };

struct larges {
    uint32_t calls;
    uint64_t from, length;
};

/* Only whole large pages are discarded. */
static int discard_large(void *context, const struct balloon_region *region, uint64_t from,
                         uint64_t length)
{
    struct larges *seen = context;
    EXPECT(length > 0 && from % region->page_size == 0 && length % region->page_size == 0 &&
           from + length <= region->length);
    seen->calls++;
    seen->from = from;
    seen->length = length;
    memset(region->host + from, 0, length);
    return 0;
}

/* Inflates or deflates `count` pages from one on, by requests of at most 256. */
static struct balloon_result move_pages(struct guest *guest, uint32_t kind, uint32_t first,
                                        uint32_t count)
{
    struct balloon_result all = {0};
    for (uint32_t done = 0; done < count; done += 256) {
        uint32_t pages[256], some = count - done < 256 ? count - done : 256;
        for (uint32_t i = 0; i < some; i++)
            pages[i] = first + done + i;
        name_pages(guest, kind, pages, some);
        struct balloon_result one = balloon_notify(&guest->balloon, kind);
        EXPECT(one.code == VB_OK && one.pages == some && one.in_holes == 0 && one.kept == 0);
        all.discarded += one.discarded;
        all.waiting += one.waiting;
    }
    return all;
}

/* Reports `count` pages from one on. */
static struct balloon_result report_pages(struct guest *guest, uint32_t first, uint32_t count)
{
    describe(guest, VB_REPORT, 0, first * 4096ull, count * 4096, WRITE, 0);
    publish(guest, VB_REPORT, 0);
    return balloon_notify(&guest->balloon, VB_REPORT);
}

static void start_large(struct guest *guest, struct larges *seen, int region, uint64_t page_size,
                        uint64_t features)
{
    make_memory(guest, 0);
    guest->regions[region].page_size = page_size;
    memset(seen, 0, sizeof *seen);
    EXPECT(balloon_init(&guest->balloon, guest->regions, 2, REFUSES) == VB_OK);
    guest->balloon.context = seen;
    guest->balloon.discard = discard_large;
    guest->balloon.ballooned_words = 96;
    guest->balloon.ballooned = calloc(96, 8);
    EXPECT(guest->balloon.ballooned);
    struct balloon_result result;
    start_features(guest, features, 8);
    EXPECT(balloon_write_status(&guest->balloon, 15, &result) == 0);
}

static void stop_large(struct guest *guest)
{
    free(guest->balloon.ballooned);
    free_memory(guest);
}

/* A large page goes with the last of its pages, and no sooner: the second one is pages 512 to
  * 1023. */
static void a_large_page_goes_once_it_is_given_up(void)
{
    static struct guest guest;
    struct larges seen;
    start_large(&guest, &seen, 0, LARGE_MIB * MIB, LINUX_FEATURES);
    struct balloon_result result = move_pages(&guest, VB_INFLATE, 512, LARGE_PAGES - 1);
    EXPECT(result.discarded == 0 && result.waiting == LARGE_PAGES - 1 && seen.calls == 0);
    result = move_pages(&guest, VB_INFLATE, 1023, 1);
    EXPECT(result.discarded == 1 && result.waiting == 0);
    EXPECT(seen.calls == 1 && seen.from == LARGE_MIB * MIB && seen.length == LARGE_MIB * MIB);
    move_pages(&guest, VB_DEFLATE, 700, 2);
    EXPECT(seen.calls == 1);
    result = move_pages(&guest, VB_INFLATE, 700, 1); /* 701 is the guest's */
    EXPECT(result.discarded == 0 && result.waiting == 1 && seen.calls == 1);
    result = report_pages(&guest, 701, 1);
    EXPECT(result.discarded == 1 && result.waiting == 0 && result.in_holes == 0 && seen.calls == 2);
    result = report_pages(&guest, 1024 + 3, LARGE_PAGES + 5); /* ends within the fourth one */
    EXPECT(result.discarded == 0 && result.waiting == LARGE_PAGES + 5 && seen.calls == 2);
    result = report_pages(&guest, 1024 - 2,
                          LARGE_PAGES +
                              7); /* all of the third one; a reported page is the guest's again */
    EXPECT(result.discarded == LARGE_PAGES && result.waiting == 7 && result.in_holes == 0);
    EXPECT(seen.calls == 3 && seen.from == 2 * LARGE_MIB * MIB && seen.length == LARGE_MIB * MIB);
    result = move_pages(&guest, VB_INFLATE, 701, 1);
    EXPECT(result.discarded == 1 && seen.calls == 4);
    result =
        report_pages(&guest, 1024 - 2,
                     LARGE_PAGES + 7); /* and the end of the second one, which is in the balloon */
    EXPECT(result.discarded == LARGE_PAGES + 2 && result.waiting == 5 && result.in_holes == 0);
    EXPECT(seen.calls == 5 && seen.from == LARGE_MIB * MIB && seen.length == 2 * LARGE_MIB * MIB);
    EXPECT(balloon_write_status(&guest.balloon, 0, &result) == 0);
    start_features(&guest, LINUX_FEATURES, 8);
    name_pages(&guest, VB_INFLATE, (const uint32_t[]){600}, 1);
    EXPECT(balloon_write_status(&guest.balloon, 15, &result) ==
           0); /* nothing is in the balloon after a reset */
    EXPECT(result.chains == 1 && result.marked == 1 && result.discarded == 0 &&
           result.waiting == 1 && result.in_holes == 0);
    EXPECT(seen.calls == 5);
    stop_large(&guest);
}

/* Without a set, or from a driver that may use a page before it tells so, only what one part has
 * whole goes. */
static void the_set_may_not_count(bool has_set, uint64_t features)
{
    static struct guest guest;
    struct larges seen;
    start_large(&guest, &seen, 0, LARGE_MIB * MIB, features);
    uint64_t *set = guest.balloon.ballooned;
    guest.balloon.ballooned = has_set ? set : NULL;
    struct balloon_result result = move_pages(&guest, VB_INFLATE, 512, LARGE_PAGES);
    EXPECT(result.discarded == 0 && result.waiting == LARGE_PAGES && seen.calls == 0);
    result = report_pages(&guest, 500, LARGE_PAGES + 20);
    EXPECT(result.discarded == LARGE_PAGES && result.waiting == 20 && seen.calls == 1);
    guest.balloon.ballooned = set;
    stop_large(&guest);
}

/* Where a region isn't such pages, all waits; a size of 4096 is as none. */
static void a_page_size_may_not_fit(void)
{
    const struct {
        uint64_t page_size, moved;
        bool goes;
    } rows[] = {
        {0, 0, true},
        {4096, 0, true},
        {8192, 0, true},
        {LARGE_MIB * MIB, 0, true},
        {LARGE_MIB * MIB, 4096, false},
        {16 * MIB, 0, false},
        {3 * MIB, 0, false},
        {2048, 0, false},
        {1, 0, false},
        {2ull << 30, 0, false},
    };
    for (size_t row = 0; row < sizeof rows / sizeof *rows; row++) {
        VbDevice device = {.features = LINUX_FEATURES};
        VbRegion region = {0, LOW_MIB * MIB, rows[row].moved};
        VbCut part = {5, LARGE_MIB * MIB, rows[row].moved + LARGE_MIB * MIB, LARGE_MIB * MIB};
        VbLarge large = vb_large_pages(
            &device, &region, rows[row].page_size ? rows[row].page_size : 4096, &part, NULL, 0);
        EXPECT(large.cut.region == 5 && large.waiting == (rows[row].goes ? 0 : LARGE_PAGES));
        EXPECT(large.cut.offset == (rows[row].goes ? part.offset : 0) &&
               large.cut.length == (rows[row].goes ? part.length : 0));
        EXPECT(large.cut.in_file == (rows[row].goes ? part.in_file : 0));
    }
    static const uint64_t none[] = {3 * MIB, 2048, 1};
    for (size_t row = 0; row < sizeof none / sizeof *none; row++) {
        static struct guest guest;
        struct larges seen;
        start_large(&guest, &seen, 0, none[row], LINUX_FEATURES);
        struct balloon_result result = move_pages(&guest, VB_INFLATE, 512, 256);
        EXPECT(result.discarded == 0 && result.waiting == 256 && seen.calls == 0);
        stop_large(&guest);
    }
}

/* Large pages after the second region alone, and what waits of two of them in one request. */
static void one_region_may_be_of_large_pages(void)
{
    static struct guest guest;
    struct larges seen;
    const uint32_t first = (uint32_t)(HIGH_ADDRESS / 4096),
                   pages[] = {first, first + LARGE_PAGES, first + LARGE_PAGES + 1};
    start_large(&guest, &seen, 1, LARGE_MIB * MIB, LINUX_FEATURES);
    name_pages(&guest, VB_INFLATE, pages, 3);
    struct balloon_result result = balloon_notify(&guest.balloon, VB_INFLATE);
    EXPECT(result.pages == 3 && result.waiting == 3 && result.discarded == 0 &&
           result.in_holes == 0 && seen.calls == 0);
    result = move_pages(&guest, VB_INFLATE, first + LARGE_PAGES + 2, LARGE_PAGES - 2);
    EXPECT(result.discarded == LARGE_PAGES - 2 - 256 && result.waiting == 256 && seen.calls == 1);
    EXPECT(seen.from == LARGE_MIB * MIB && seen.length == LARGE_MIB * MIB);
    stop_large(&guest);
}

/* On pages of 2 MiB of the host's, where it has some: a hole in one is refused by it, so a right
 * device never asks for one. */
static void huge_pages_go(void)
{
    static struct guest guest;
    struct larges seen;
    int file = memfd_create("huge", MFD_HUGETLB | MFD_HUGE_2MB);
    if (file < 0 || ftruncate(file, 2 * LARGE_MIB * MIB) != 0 ||
        fallocate(file, 0, 0, 2 * LARGE_MIB * MIB) != 0) {
        puts("huge pages: this host has no two of 2 MiB, so nothing is tested on them");
        if (file >= 0)
            close(file);
        return;
    }
    start_large(&guest, &seen, 0, 0, LINUX_FEATURES);
    uint8_t *huge = mmap(NULL, 2 * LARGE_MIB * MIB, PROT_READ | PROT_WRITE, MAP_SHARED, file, 0);
    EXPECT(huge != MAP_FAILED);
    memset(huge, 7, 2 * LARGE_MIB * MIB);
    const struct balloon_region regions[] = {
        guest.regions[0], {HIGH_ADDRESS, 2 * LARGE_MIB * MIB, huge, file, 0, LARGE_MIB * MIB}};
    EXPECT(balloon_set_regions(&guest.balloon, regions, 2) == VB_OK);
    guest.balloon.discard = NULL;
    uint32_t first = (uint32_t)(HIGH_ADDRESS / 4096);
    struct balloon_result result = move_pages(&guest, VB_INFLATE, first + 2, LARGE_PAGES - 1);
    EXPECT(result.discarded == 0 && result.waiting == LARGE_PAGES - 1 && huge[2 * 4096] == 7);
    result = move_pages(&guest, VB_INFLATE, first, 2);
    EXPECT(result.discarded == 2 && result.error == 0 && huge[0] == 0 &&
           huge[LARGE_MIB * MIB - 1] == 0 && huge[LARGE_MIB * MIB] == 7);
    munmap(huge, 2 * LARGE_MIB * MIB);
    close(file);
    stop_large(&guest);
}

void test_large_pages(void)
{
    RUN(a_large_page_goes_once_it_is_given_up());
    RUN(the_set_may_not_count(false, LINUX_FEATURES));
    RUN(the_set_may_not_count(true, LINUX_FEATURES & ~(uint64_t)MUST_TELL_HOST));
    RUN(a_page_size_may_not_fit());
    RUN(one_region_may_be_of_large_pages());
    RUN(huge_pages_go());
}
