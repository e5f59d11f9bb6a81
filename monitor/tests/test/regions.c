/* Regions that touch, have bounds or are remapped, and queues that aren't there. */
#include "test.h"

#ifndef RUST_SHIM
static int discard_likewise(void *context, const struct balloon_region *region, uint64_t from,
                            uint64_t length)
{
    (void)context;
    return balloon_discard_bytes(region, from, length);
}
#endif

/* Two halves of a file that are in memory in the other order: a run, a ring and a buffer over the
 * boundary. A monitor may discard by itself as the balloon does. */
static void regions_may_touch(int (*discard)(void *, const struct balloon_region *, uint64_t,
                                             uint64_t))
{
    static struct guest guest;
    struct balloon *balloon = &guest.balloon;
    const uint32_t pages[] = {512, 511, 510};
    const uint64_t half = 2 * MIB;
    struct balloon_result result;
    make_memory(&guest, 0);
    struct balloon_region regions[] = {
        {half, half, guest.regions[0].host, guest.regions[0].fd, 0, 0},
        {0, half, guest.regions[0].host + half, guest.regions[0].fd, half, 0}};
    EXPECT(balloon_init(balloon, regions, 2, REFUSES) == VB_OK);
    EXPECT(balloon->state.device.settings.memory_end == 2 * half);
    balloon->discard = discard;
    start_features(&guest, VERSION_1, 256);
    EXPECT(balloon_place(balloon, VB_INFLATE, half - 2048, avail_of(VB_INFLATE),
                         used_of(VB_INFLATE), 256) == VB_OK);
    EXPECT(balloon_write_status(balloon, 15, &result) == 0);
    memset(guest.regions[0].host, 1, 2 * half);
    memset(at(&guest, avail_of(VB_INFLATE)), 0, 4096);
    for (uint32_t i = 0; i < 3; i++)
        put(&guest, half + 3 * 4096 - 6 + 4 * i, pages[i], 4);
    put(&guest, half - 3, pages[0], 3);
    put(&guest, half, pages[0] >> 24, 1);
    uint8_t *descriptor = at(&guest, half + 2048 - 16); /* number 255, whose next is 0 */
    memcpy(descriptor, (const uint64_t[]){htole64(half - 3), htole64(4 | (uint64_t)NEXT << 32)},
           16);
    memcpy(at(&guest, half - 2048), (const uint64_t[]){htole64(half + 3 * 4096 - 2), htole64(8)},
           16);
    publish(&guest, VB_INFLATE, 255);
    memset(at(&guest, 510 * 4096), 1, 4096);
    result = balloon_notify(balloon, VB_INFLATE);
    EXPECT(result.code == VB_OK && result.pages == 3 && result.discarded == 3 &&
           result.in_holes == 0);
    EXPECT(resident(&guest, 509) && !resident(&guest, 510) && !resident(&guest, 511) &&
           !resident(&guest, 512));
    EXPECT(resident(&guest, 513) && get(&guest, used_of(VB_INFLATE) + 4 + 8 * 0, 2) == 255);
    free_memory(&guest);
}

static void regions_have_bounds(void)
{
    static struct guest guest;
    struct balloon *balloon = &guest.balloon;
    start(&guest, 0, REFUSES, VERSION_1, 8);
    const struct balloon_region wrong[] = {
        {1ull << 44, 4096, NULL, -1, 0, 0},
        {(1ull << 44) - 4096, 8192, NULL, -1, 0, 0},
        {UINT64_MAX - 4095, 4096, NULL, -1, 0, 0},
        {4096, UINT64_MAX, NULL, -1, 0, 0},
        {4096, 8191, NULL, -1, 0, 0},
        {2048, 8192, NULL, -1, 0, 0},
    };
    for (size_t i = 0; i < sizeof wrong / sizeof wrong[0]; i++)
        EXPECT(balloon_set_regions(balloon, &wrong[i], 1) == VB_BAD_ARGUMENT &&
               balloon->region_count == 2 && balloon->regions == guest.regions);
    memset(at(&guest, 600 * 4096), 1, 4096);
    name_pages(&guest, VB_INFLATE, (const uint32_t[]){600}, 1);
    EXPECT(balloon_notify(balloon, VB_INFLATE).discarded == 1 &&
           !resident(&guest, 600)); /* over the regions before */
    EXPECT(balloon_set_regions(balloon, guest.regions, 1) == VB_OK && balloon->region_count == 1);
    EXPECT(balloon->state.device.settings.memory_end == 8 * MIB);
    EXPECT(balloon_init(balloon, guest.regions, 0, REFUSES) == VB_OK &&
           balloon->state.device.settings.memory_end == 0);
    EXPECT(balloon_init(balloon, guest.regions, 2, (VbSettings){.offered = 0x27}) ==
           VB_BAD_ARGUMENT);
    free_memory(&guest);
}

/* Regions in the other order: what is discarded lies where the new ones say, and what is in the
 * balloon stays there. */
static void memory_is_mapped_anew(void)
{
    static struct guest guest;
    static uint64_t words[96]; /* 6144 pages */
    const uint32_t pages[] = {600, 4200};
    start(&guest, 0, REFUSES, LINUX_FEATURES, 8);
    guest.balloon.ballooned = words;
    guest.balloon.ballooned_words = 96;
    name_pages(&guest, VB_INFLATE, (const uint32_t[]){64}, 1);
    EXPECT(balloon_notify(&guest.balloon, VB_INFLATE).marked == 1 && words[1] == 1);
    memset(at(&guest, 600 * 4096), 1, 4096);
    memset(at(&guest, 4200 * 4096), 1, 4096);
    const struct balloon_region other[] = {guest.regions[1], guest.regions[0]};
    EXPECT(balloon_set_regions(&guest.balloon, other, 2) == VB_OK &&
           guest.balloon.regions == other);
    name_pages(&guest, VB_INFLATE, pages, 2);
    struct balloon_result result = balloon_notify(&guest.balloon, VB_INFLATE);
    EXPECT(result.code == VB_OK && result.discarded == 2 && !resident(&guest, 600) &&
           !resident(&guest, 4200));
    EXPECT(used_index(&guest, VB_INFLATE) == 2 && result.marked == 2 && words[1] == 1 &&
           words[9] == 1ull << 24);
#ifndef RUST_SHIM
    static struct balloon_region many[BALLOON_MOST_REGIONS + 1];
    for (uint64_t i = 0; i <= BALLOON_MOST_REGIONS; i++)
        many[i] =
            (struct balloon_region){i * 8192, 4096, guest.regions[0].host, BALLOON_PRIVATE, 0, 0};
    EXPECT(balloon_set_regions(&guest.balloon, many, BALLOON_MOST_REGIONS + 1) == VB_BAD_ARGUMENT &&
           guest.balloon.regions == other);
    VbSettings ended = REFUSES;
    ended.memory_end = MIB;
    EXPECT(balloon_init(&guest.balloon, many, BALLOON_MOST_REGIONS + 1, ended) == VB_BAD_ARGUMENT);
    EXPECT(balloon_init(&guest.balloon, many, BALLOON_MOST_REGIONS, REFUSES) == VB_OK);
#endif
    free_memory(&guest);
}

/* Beyond 4 GiB of a region, and of its file, numbers of 64 bits say where a ring, a buffer and a
 * page lie. What is in the `offset` of memory without a file means nothing. */
static void regions_may_be_far(bool has_file)
{
    static struct guest guest;
    struct balloon *balloon = &guest.balloon;
    const uint64_t far = 5ull << 30, ring = far + 0x10000, buffer = far + 0x20000,
                   length = far + MIB;
    const uint32_t page = (uint32_t)(far / 4096) + 100,
                   low = (uint32_t)((far + 100 * 4096) % (1ull << 32) / 4096);
    const int flags = MAP_NORESERVE | (has_file ? MAP_SHARED : MAP_PRIVATE | MAP_ANONYMOUS);
    int fd = has_file ? memfd_create("far", 0) : BALLOON_PRIVATE;
    struct balloon_result result;
    EXPECT(!has_file || (fd >= 0 && ftruncate(fd, (off_t)(far + length)) == 0));
    void *host = mmap(NULL, length, PROT_READ | PROT_WRITE, flags, has_file ? fd : -1,
                      has_file ? (off_t)far : 0);
    EXPECT(host != MAP_FAILED);
    const struct balloon_region region = {0, length, host, fd, has_file ? far : 1ull << 63, 0};
    EXPECT(balloon_init(balloon, &region, 1, REFUSES) == VB_OK);
    start_features(&guest, LINUX_FEATURES, 8);
    EXPECT(balloon_place(balloon, VB_INFLATE, ring, ring + 4096, ring + 8192, 8) == VB_OK);
    EXPECT(balloon_write_status(balloon, 15, &result) == 0);
    memset(at(&guest, page * 4096ull), 1, 4096);
    memset(at(&guest, low * 4096ull), 1, 4096);
    put(&guest, buffer, page, 4);
    put(&guest, ring, buffer, 8);
    put(&guest, ring + 8, 4, 4);
    put(&guest, ring + 4096 + 2, 1, 2);
    result = balloon_notify(balloon, VB_INFLATE);
    EXPECT(result.code == VB_OK && result.discarded == 1 && result.error == 0 &&
           get(&guest, ring + 8192 + 2, 2) == 1);
    EXPECT(!resident(&guest, page) && resident(&guest, low) && *at(&guest, low * 4096ull) == 1);
    describe(&guest, VB_REPORT, 0, 1 << 30, 400 * MIB, WRITE, 0);
    publish(&guest, VB_REPORT, 0), publish(&guest, VB_REPORT, 0);
    result = balloon_notify(balloon, VB_REPORT);
    EXPECT(result.chains == 2 && !result.more && result.pages == 2 * 400 * MIB / 4096 &&
           result.discarded == result.pages);
    munmap(host, length);
    if (has_file)
        close(fd);
}

/* A notice of a queue without a place, or without its feature, says so. */
static void queues_may_be_missing(void)
{
    static struct guest guest;
    struct balloon_result result;
    start(&guest, 0, REFUSES, VERSION_1, 8);
    EXPECT(balloon_notify(&guest.balloon, VB_STATISTICS).code == VB_NO_QUEUE);
    EXPECT(balloon_notify(&guest.balloon, VB_REPORT).code == VB_NO_QUEUE);
    EXPECT(balloon_notify(&guest.balloon, VB_NO_KIND).code == VB_NO_QUEUE);
    EXPECT(balloon_write_status(&guest.balloon, 0, &result) == 0);
    EXPECT(balloon_notify(&guest.balloon, VB_INFLATE).code == VB_NOT_READY);
    EXPECT(balloon_write_status(&guest.balloon, 1, &result) == 0);
    EXPECT(balloon_write_status(&guest.balloon, 3, &result) == 0 &&
           !balloon_may_tell(&guest.balloon));
    EXPECT(balloon_negotiate(&guest.balloon, 1) == 0 &&
           balloon_write_status(&guest.balloon, 11, &result) == 5);
    EXPECT(balloon_negotiate(&guest.balloon, VERSION_1 | 8) == 3 &&
           balloon_write_status(&guest.balloon, 1, &result) == 1);
    EXPECT(balloon_negotiate(&guest.balloon, VERSION_1) == 0 &&
           balloon_write_status(&guest.balloon, 15, &result) == 2);
    EXPECT(balloon_write_status(&guest.balloon, 11, &result) == 0);
    EXPECT(balloon_write_status(&guest.balloon, 15, &result) == 0 && result.code == VB_NOTHING &&
           result.chains == 0);
    EXPECT(balloon_may_tell(&guest.balloon));
    EXPECT(balloon_notify(&guest.balloon, VB_INFLATE).code == VB_MISPLACED);
    free_memory(&guest);
}

void test_regions(void)
{
    RUN(regions_may_touch(NULL));
#ifndef RUST_SHIM
    RUN(regions_may_touch(discard_likewise));
#endif
    RUN(regions_have_bounds());
    RUN(memory_is_mapped_anew());
    RUN(regions_may_be_far(true));
    RUN(regions_may_be_far(false));
    RUN(queues_may_be_missing());
}
