/* Statistics, whose buffer the device holds. */
#include "test.h"

struct told {
    uint32_t count, calls;
    VbStatistic figure[102];
};

static void hear(void *context, const VbStatistic *figures, uint32_t count)
{
    struct told *told = context;
    told->count = count;
    told->calls++;
    memcpy(told->figure, figures, count * sizeof *figures);
}

static void fill_statistics(struct guest *guest, uint32_t count, uint64_t base)
{
    for (uint32_t i = 0; i < count; i++) {
        put(guest, buffer_of(VB_STATISTICS) + 10 * i, (uint16_t)(i * 7), 2);
        put(guest, buffer_of(VB_STATISTICS) + 10 * i + 2, base + i, 8);
    }
    describe(guest, VB_STATISTICS, 0, buffer_of(VB_STATISTICS), 10 * count, 0, 1);
    publish(guest, VB_STATISTICS, 0);
}

/* The first buffer is available before DRIVER_OK; it is asked for, filled again, and saved
 * meanwhile. */
static void statistics_come(void)
{
    static struct guest guest;
    static struct told told;
    struct balloon_result result;
    make_memory(&guest, 0);
    EXPECT(balloon_init(&guest.balloon, guest.regions, 2, REFUSES) == VB_OK);
    guest.balloon.context = &told;
    guest.balloon.on_statistics = hear;
    start_features(&guest, LINUX_FEATURES, 128);
    fill_statistics(&guest, 10, 0xfedcba9876543210);
    EXPECT(balloon_notify(&guest.balloon, VB_STATISTICS).code == VB_NOT_READY && told.calls == 0);
    EXPECT(balloon_write_status(&guest.balloon, 15, &result) == 0);
    EXPECT(result.code == VB_OK && result.chains == 1 && result.interrupts == 0 &&
           told.count == 10);
    EXPECT(told.figure[9].tag == 63 && told.figure[9].value == 0xfedcba9876543219);
    EXPECT(used_index(&guest, VB_STATISTICS) == 0 &&
           balloon_notify(&guest.balloon, VB_STATISTICS).code == VB_NOTHING);
    VbBalloon saved = guest.balloon.state;
    guest.balloon.state = (VbBalloon){.held = {.statistics = UINT32_MAX}};
    guest.balloon.state = saved;
    result = balloon_ask_statistics(&guest.balloon);
    EXPECT(result.code == VB_OK && result.interrupts == 1 << VB_STATISTICS &&
           used_index(&guest, VB_STATISTICS) == 1);
    EXPECT(balloon_ask_statistics(&guest.balloon).code == VB_NOTHING &&
           last_used(&guest, VB_STATISTICS) == 0);
    fill_statistics(&guest, 102, 5);
    EXPECT(balloon_notify(&guest.balloon, VB_STATISTICS).code == VB_OK && told.calls == 2 &&
           told.count == 102);
    EXPECT(told.figure[101].tag == 707 && told.figure[101].value == 106);
    EXPECT(balloon_ask_statistics(&guest.balloon).code == VB_OK);
    fill_statistics(&guest, 0, 0);
    EXPECT(balloon_notify(&guest.balloon, VB_STATISTICS).code == VB_OK && told.calls == 3 &&
           told.count == 0);
    free_memory(&guest);
}

/* The device keeps one buffer at a time, and none over a reset. */
static void one_buffer_is_held(void)
{
    static struct guest guest;
    static struct told told;
    struct balloon_result result;
    start(&guest, 0, REFUSES, LINUX_FEATURES, 8);
    guest.balloon.context = &told;
    guest.balloon.on_statistics = hear;
    fill_statistics(&guest, 3, 7);
    EXPECT(balloon_notify(&guest.balloon, VB_STATISTICS).chains == 1 && told.calls == 1);
    describe(&guest, VB_STATISTICS, 5, buffer_of(VB_STATISTICS), 20, 0, 0);
    publish(&guest, VB_STATISTICS, 5);
    result = balloon_notify(&guest.balloon, VB_STATISTICS);
    EXPECT(result.code == VB_NOTHING && !result.more && told.calls == 1);
    EXPECT(balloon_ask_statistics(&guest.balloon).chains == 1 &&
           last_used(&guest, VB_STATISTICS) == 0);
    EXPECT(balloon_notify(&guest.balloon, VB_STATISTICS).chains == 1 && told.calls == 2 &&
           told.count == 2);
    EXPECT(balloon_ask_statistics(&guest.balloon).chains == 1 &&
           last_used(&guest, VB_STATISTICS) == 5);
    fill_statistics(&guest, 1, 7);
    EXPECT(balloon_notify(&guest.balloon, VB_STATISTICS).chains == 1 && told.calls == 3);
    start_features(&guest, LINUX_FEATURES, 8);
    fill_statistics(&guest, 4, 7);
    EXPECT(balloon_ask_statistics(&guest.balloon).code == VB_NOTHING);
    EXPECT(balloon_write_status(&guest.balloon, 15, &result) == 0 && result.chains == 1 &&
           told.count == 4);
    free_memory(&guest);
}

void test_statistics(void)
{
    RUN(statistics_come());
    RUN(one_buffer_is_held());
}
