/* What the machine answers to a discard: it is asked again where it was interrupted, and its
 * reasons are told. */
#include "test.h"
#include <sys/syscall.h>

int fail_at_700(void *context, const struct balloon_region *region, uint64_t from, uint64_t length)
{
    (void)context, (void)region, (void)length;
    return from == 700 * 4096 ? EIO : 0;
}

static int fail_to_discard(void *context, const struct balloon_region *region, uint64_t from,
                           uint64_t length)
{
    (void)context, (void)region, (void)from, (void)length;
    return EIO;
}

/* The machine's calls, after as many interruptions as a test wants, and failing where one wants
 * that. */
static int interruptions, failure;
uint32_t advices;

int fallocate(int file, int how, off_t from, off_t length)
{
    errno = interruptions > 0 ? EINTR : failure;
    if (interruptions > 0 || failure)
        return interruptions -= interruptions > 0, -1;
    return (int)syscall(SYS_fallocate, file, how, from, length);
}

int madvise(void *from, size_t length, int advice)
{
    errno = failure;
    advices++;
    return failure ? -1 : (int)syscall(SYS_madvise, from, length, advice);
}

/* The guest's `count` pages from this one on have their bytes. */
static bool stay(const struct guest *guest, uint32_t first, uint32_t count)
{
    bool all = true;
    for (uint32_t page = first; page < first + count; page++)
        all &= resident(guest, page) && *at(guest, page * 4096ull + 4095) == 1;
    return all;
}

/* A discard that is interrupted is tried again; one that fails is told with its reason, in memory
 * of each sort. */
static void the_machine_is_asked_again(int low)
{
    static struct guest guest;
    const uint32_t pages[] = {700, 702};
    start(&guest, low, REFUSES, LINUX_FEATURES, 4);
    memset(at(&guest, 700 * 4096), 1, 4096);
    interruptions = low == 0 ? 3 : 0; /* madvise has none (its man page) */
    name_pages(&guest, VB_INFLATE, pages, 2);
    struct balloon_result result = balloon_notify(&guest.balloon, VB_INFLATE);
    EXPECT(interruptions == 0 && result.discarded == 2 && result.kept == 0 && result.error == 0 &&
           !resident(&guest, 700));
    failure = ENOSPC;
    guest.balloon.discards_apart = true; /* together.c is of parts that aren't */
    name_pages(&guest, VB_INFLATE, pages, 2);
    result = balloon_notify(&guest.balloon, VB_INFLATE);
    failure = 0;
    EXPECT(result.code == VB_OK && result.discarded == 0 && result.kept == 2 &&
           result.error == ENOSPC);
    free_memory(&guest);
}

static int fail_by_page(void *context, const struct balloon_region *region, uint64_t from,
                        uint64_t length)
{
    (void)context, (void)region, (void)length;
    return from == 700 * 4096 ? EIO : from == 800 * 4096 ? EPERM : 0;
}

/* Where discards fail, and later ones don't, the last reason stays. What a monitor discards by
 * itself, nobody else does. */
static void a_reason_stays(void)
{
    static struct guest guest;
    const uint32_t pages[] = {700, 800, 900};
    start(&guest, 0, REFUSES, LINUX_FEATURES, 4);
    guest.balloon.discard = fail_by_page;
    memset(at(&guest, 900 * 4096), 1, 4096);
    name_pages(&guest, VB_INFLATE, pages, 3);
    struct balloon_result result = balloon_notify(&guest.balloon, VB_INFLATE);
    EXPECT(result.kept == 2 && result.error == EPERM && result.discarded == 1 &&
           stay(&guest, 900, 1));
    free_memory(&guest);
}

/* Pages that the machine keeps are counted; the driver gets its chain back all the same. */
static void pages_may_be_kept(void)
{
    static struct guest guest;
    const uint32_t pages[] = {700, 701, 800};
    start(&guest, 0, REFUSES, LINUX_FEATURES, 4);
    memset(at(&guest, 700 * 4096), 1, 4096);
    guest.balloon.discard = fail_to_discard;
    name_pages(&guest, VB_INFLATE, pages, 3);
    struct balloon_result result = balloon_notify(&guest.balloon, VB_INFLATE);
    EXPECT(result.code == VB_OK && result.kept == 3 && result.error == EIO &&
           result.discarded == 0);
    EXPECT(used_index(&guest, VB_INFLATE) == 1 && *at(&guest, 700 * 4096) == 1 &&
           result.in_holes == 0);
    free_memory(&guest);
}

static int never_discard(void *context, const struct balloon_region *region, uint64_t from,
                         uint64_t length)
{
    (void)context, (void)region, (void)from, (void)length;
    exit(1);
}

/* A notice that keeps all pages tells them and marks them, and counts those that were given up or
 * are free: nothing is discarded, and no list of parts is made. The next notice may keep none. */
/* Starts a guest whose balloon keeps all pages, and says which it names. */
static void start_that_keeps(struct guest *guest, struct seen *seen, uint64_t *words, size_t count)
{
    start(guest, 0, REFUSES, LINUX_FEATURES, 8);
    guest->balloon.context = seen;
    guest->balloon.on_pages = see_pages;
    guest->balloon.discard = never_discard;
    guest->balloon.ballooned = words;
    guest->balloon.ballooned_words = count;
    guest->balloon.keeps_pages = true;
}

static void a_notice_may_keep_all_pages(void)
{
    static struct guest guest;
    static struct seen seen;
    static uint64_t words[1024 / 64]; /* 1024 pages */
    static VbCut untouched[VB_MAX_CUTS];
    const uint32_t pages[] = {700, 701, 800};
    start_that_keeps(&guest, &seen, words, sizeof words / sizeof words[0]);
    memset(untouched, 0xa5, sizeof untouched);
    memcpy(guest.balloon.room.cuts, untouched, sizeof untouched);
    memset(at(&guest, 700 * 4096), 1, 202 * 4096);
    name_pages(&guest, VB_INFLATE, pages, 3);
    struct balloon_result result = balloon_notify(&guest.balloon, VB_INFLATE);
    EXPECT(result.code == VB_OK && result.chains == 1 && result.pages == 3 && result.marked == 3 &&
           result.error == 0);
    EXPECT(result.kept == 3 && result.discarded == 0 && result.in_holes == 0 &&
           stay(&guest, 700, 2) && stay(&guest, 800, 1));
    EXPECT(seen.calls == 1 && seen.runs == 2 && seen.run[0].first == 700 &&
           seen.run[0].count == 2 && seen.run[1].first == 800);
    EXPECT(words[10] == 3ull << 60 && words[12] == 1ull << 32 &&
           used_index(&guest, VB_INFLATE) == 1);
    describe(&guest, VB_REPORT, 0, 900 * 4096, 2 * 4096, WRITE, 0);
    publish(&guest, VB_REPORT, 0);
    result = balloon_notify(&guest.balloon, VB_REPORT);
    EXPECT(result.chains == 1 && result.pages == 2 && result.kept == 2 && result.discarded == 0 &&
           stay(&guest, 900, 2));
    EXPECT(seen.calls == 2 && seen.run[0].first == 900 && seen.run[0].count == 2 &&
           used_index(&guest, VB_REPORT) == 1);
    name_pages(&guest, VB_DEFLATE, pages, 2);
    result = balloon_notify(&guest.balloon, VB_DEFLATE);
    EXPECT(result.chains == 1 && result.pages == 2 && result.kept == 0 && result.discarded == 0 &&
           result.marked == 2 && words[10] == 0);
    EXPECT(memcmp(guest.balloon.room.cuts, untouched, sizeof untouched) == 0);
    guest.balloon.keeps_pages = false;
    guest.balloon.discard = NULL;
    name_pages(&guest, VB_INFLATE, pages, 2);
    result = balloon_notify(&guest.balloon, VB_INFLATE);
    EXPECT(result.pages == 2 && result.kept == 0 && result.discarded == 2 &&
           !resident(&guest, 700) && !resident(&guest, 701));
    guest.balloon.keeps_pages = true;
    name_pages(&guest, VB_INFLATE, pages, 3);
    result = balloon_notify(&guest.balloon, VB_INFLATE);
    EXPECT(result.pages == 3 && result.kept == 3 && result.discarded == 0 && stay(&guest, 800, 1));
    free_memory(&guest);
}

void test_discards(void)
{
    RUN(the_machine_is_asked_again(0));
    RUN(the_machine_is_asked_again(BALLOON_SHARED));
    RUN(the_machine_is_asked_again(BALLOON_PRIVATE));
    RUN(a_reason_stays());
    RUN(pages_may_be_kept());
    RUN(a_notice_may_keep_all_pages());
}
