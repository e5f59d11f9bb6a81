/* Rings of each size from 1 to 1,024 entries, and chains in the largest one. */
#include "test.h"

/* The largest ring has pages of its own: four, one and three. */
enum {
    TABLE = 16 * 4096,
    AVAIL = 20 * 4096,
    USED = 21 * 4096,
    BUFFER = 40 * 4096,
    FIRST_PAGE = 500
};

static VbQueueStart ring_of(uint16_t size, uint16_t next)
{
    return (VbQueueStart){TABLE, AVAIL, USED, size, next};
}

/* A balloon whose queue of inflates resumes at an index, and what the driver has there. */
static void begin(struct guest *guest, uint16_t size, uint16_t next)
{
    struct balloon_result result;
    start(guest, 0, REFUSES, VERSION_1, 8);
    for (uint64_t page = TABLE; page < USED + 3 * 4096; page += 4096)
        memset(at(guest, page), 0, 4096);
    put(guest, AVAIL + 2, next, 2);
    put(guest, USED + 2, next, 2);
    EXPECT(balloon_start_queue(&guest->balloon, VB_INFLATE, ring_of(size, next)) == VB_OK);
    EXPECT(balloon_write_status(&guest->balloon, 15, &result) == 0);
}

static void describe_at(const struct guest *guest, uint32_t number, uint64_t address,
                        uint32_t length, uint32_t flags, uint32_t next)
{
    put(guest, TABLE + 16 * number, address, 8);
    put(guest, TABLE + 16 * number + 8, length | (uint64_t)flags << 32 | (uint64_t)next << 48, 8);
}

static void publish_at(const struct guest *guest, uint16_t size, uint16_t index, uint16_t head)
{
    put(guest, AVAIL + 4 + 2 * (uint64_t)(index % size), head, 2);
    put(guest, AVAIL + 2, (uint16_t)(index + 1), 2);
}

static struct balloon_result serve_all(struct guest *guest)
{
    struct balloon_result result, all = {.code = VB_OK};
    do {
        result = balloon_notify(&guest->balloon, VB_INFLATE);
        all.code = result.code, all.rule = result.rule, all.chains += result.chains,
        all.pages += result.pages;
    } while (result.more && !result.code);
    return all;
}

/* As many chains as a ring has entries, the last one's head first, over its end and the last
  * index. */
static void each_size_is_served(void)
{
    const uint16_t sizes[] = {1, 2, 4, 64, 256, 512, 1024};
    static struct guest guest;
    for (size_t i = 0; i < sizeof sizes / sizeof sizes[0]; i++) {
        const uint16_t size = sizes[i], first = (uint16_t)(65536 - size / 2 - 1);
        begin(&guest, size, first);
        for (uint16_t k = 0; k < size; k++) {
            put(&guest, BUFFER + 4u * k, FIRST_PAGE + k, 4);
            describe_at(&guest, k, BUFFER + 4u * k, 4, 0, 0);
            publish_at(&guest, size, (uint16_t)(first + k), (uint16_t)(size - 1 - k));
        }
        struct balloon_result all = serve_all(&guest);
        EXPECT(all.code == VB_OK && all.chains == size && all.pages == size);
        EXPECT(get(&guest, USED + 2, 2) == (uint16_t)(first + size));
        for (uint16_t k = 0; k < size; k++)
            EXPECT(get(&guest, USED + 4 + 8u * ((uint16_t)(first + k) % size), 8) == size - 1u - k);
        free_memory(&guest);
    }
}

static void no_other_size_is_taken(void)
{
    const uint16_t none[] = {0, 3, 257, 768, 1023, 1025, 2048, 32768, 65535};
    static struct guest guest;
    begin(&guest, 8, 0);
    for (size_t i = 0; i < sizeof none / sizeof none[0]; i++)
        EXPECT(balloon_start_queue(&guest.balloon, VB_INFLATE, ring_of(none[i], 0)) ==
               VB_MISPLACED);
    EXPECT(ring_of_kind(&guest.balloon, VB_INFLATE)->size == 8);
    free_memory(&guest);
}

/* What a chain of `count` descriptors, which ends with the table, comes to; all but its first
 * buffer are empty. */
static struct balloon_result serve_chain(struct guest *guest, uint16_t size, uint16_t count)
{
    begin(guest, size, 0);
    put(guest, BUFFER, FIRST_PAGE, 4);
    for (uint16_t k = 0; k < count; k++)
        describe_at(guest, size - count + k, BUFFER, k == 0 ? 4 : 0, k + 1 < count ? NEXT : 0,
                    size - count + k + 1u);
    publish_at(guest, size, 0, size - count);
    struct balloon_result result = serve_all(guest);
    free_memory(guest);
    return result;
}

static void a_chain_has_256_descriptors_at_most(void)
{
    static struct guest guest;
    const uint16_t sizes[] = {256, 512, 1024};
    for (size_t i = 0; i < sizeof sizes / sizeof sizes[0]; i++) {
        struct balloon_result whole = serve_chain(&guest, sizes[i], 256);
        EXPECT(whole.code == VB_OK && whole.chains == 1 && whole.pages == 1);
    }
    for (uint16_t count = 257; count <= 512; count += 255) {
        struct balloon_result longer = serve_chain(&guest, 1024, count);
        EXPECT(longer.code == VB_BROKEN && longer.rule == 3 && longer.chains == 0);
    }
}

/* Head 1,000, and a descriptor that names it, are right in a ring of 1,024 and wrong in one of
  * 512. */
static void heads_are_those_of_the_table(void)
{
    static struct guest guest;
    const struct {
        uint16_t size, head;
        uint32_t rule;
    } rows[] = {
        {1024, 1000, 0}, {512, 1000, 1}, {1024, 1024, 1}, {1024, 0, 0}, {512, 0, 2},
    };
    for (size_t i = 0; i < sizeof rows / sizeof rows[0]; i++) {
        begin(&guest, rows[i].size, 0);
        put(&guest, BUFFER, FIRST_PAGE, 4);
        describe_at(&guest, 0, BUFFER, 0, NEXT, 1000);
        describe_at(&guest, 1000, BUFFER, 4, 0, 0);
        publish_at(&guest, rows[i].size, 0, rows[i].head);
        struct balloon_result result = serve_all(&guest);
        EXPECT(result.code == (rows[i].rule ? VB_BROKEN : VB_OK) && result.rule == rows[i].rule &&
               result.pages == !rows[i].rule);
        free_memory(&guest);
    }
}

void test_sizes(void)
{
    RUN(each_size_is_served());
    RUN(no_other_size_is_taken());
    RUN(a_chain_has_256_descriptors_at_most());
    RUN(heads_are_those_of_the_table());
}
