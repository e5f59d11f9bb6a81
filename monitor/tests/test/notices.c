/* What one notice serves: it has an end and a budget, and tells all of its queues together. */
#include "test.h"

/* A whole queue of requests is served by one notice, and no more than that. */
static void a_notice_has_an_end(void)
{
    static struct guest guest;
    const uint32_t page = 900;
    start(&guest, 0, REFUSES, LINUX_FEATURES, 4);
    for (int i = 0; i < 4; i++)
        name_pages(&guest, VB_DEFLATE, &page, 1);
    struct balloon_result result = balloon_notify(&guest.balloon, VB_DEFLATE);
    EXPECT(result.code == VB_OK && result.chains == 4 && !result.more &&
           used_index(&guest, VB_DEFLATE) == 4);
    name_pages(&guest, VB_DEFLATE, &page, 1);
    EXPECT(balloon_notify_number(&guest.balloon, 1).chains == 1);
    EXPECT(guest.balloon.most_chains == 256 && guest.balloon.most_pages == UINT32_MAX);
    const uint32_t none[] = {4, 256, 1 << 16, UINT32_MAX};
    for (size_t i = 0; i < sizeof none / sizeof *none; i++)
        EXPECT(balloon_notify_number(&guest.balloon, none[i]).code == VB_NO_QUEUE);
    free_memory(&guest);
}

static void publish_again(void *context, uint32_t kind, const VbRun *runs, uint32_t count)
{
    (void)runs, (void)count;
    publish(context, kind, 0);
}

/* A driver that never stops gets the monitor's time in parts: what is there when a notice begins,
 * and no more. */
static void a_driver_never_stops(void)
{
    static struct guest guest;
    const uint32_t page = 900;
    start(&guest, 0, REFUSES, LINUX_FEATURES, 4);
    guest.balloon.context = &guest;
    guest.balloon.on_pages = publish_again;
    for (int i = 0; i < 2; i++)
        name_pages(&guest, VB_DEFLATE, &page, 1);
    for (uint16_t i = 1; i <= 300; i++) {
        struct balloon_result result = balloon_notify(&guest.balloon, VB_DEFLATE);
        EXPECT(result.code == VB_OK && result.chains == 2 && !result.more &&
               used_index(&guest, VB_DEFLATE) == 2 * i);
    }
    free_memory(&guest);
}

/* No further chain after as many chains, or pages, as the monitor wants; the rest is there. */
static void a_notice_keeps_to_its_budget(void)
{
    static struct guest guest;
    const uint32_t pages[] = {900, 902};
    start(&guest, 0, REFUSES, LINUX_FEATURES, 8);
    for (int i = 0; i < 5; i++)
        name_pages(&guest, VB_DEFLATE, pages, 2);
    guest.balloon.most_pages = 3;
    struct balloon_result result = balloon_notify(&guest.balloon, VB_DEFLATE);
    EXPECT(result.code == VB_OK && result.chains == 2 && result.pages == 4 && result.more &&
           result.interrupts == 1 << VB_DEFLATE);
    guest.balloon.most_pages = UINT32_MAX;
    guest.balloon.most_chains = 1;
    result = balloon_notify(&guest.balloon, VB_DEFLATE);
    EXPECT(result.code == VB_OK && result.chains == 1 && result.pages == 2 && result.more);
    guest.balloon.most_chains = 0;
    result = balloon_notify(&guest.balloon, VB_DEFLATE);
    EXPECT(result.code == VB_NOTHING && result.chains == 0 && result.more &&
           result.interrupts == 0);
    guest.balloon.most_chains = 2;
    result = balloon_notify(&guest.balloon, VB_DEFLATE);
    EXPECT(result.code == VB_OK && result.chains == 2 && !result.more &&
           used_index(&guest, VB_DEFLATE) == 5);
    free_memory(&guest);
}

/* What the machine refused of one queue is told beside what it did for a later one. */
static void an_error_of_one_queue_is_told_with_the_others(void)
{
    static struct guest guest;
    const uint32_t page = 700;
    struct balloon_result result;
    make_memory(&guest, 0);
    EXPECT(balloon_init(&guest.balloon, guest.regions, 2, SKIPS) == VB_OK);
    guest.balloon.discard = fail_at_700;
    start_features(&guest, LINUX_FEATURES, 8);
    name_pages(&guest, VB_INFLATE, &page, 1);
    describe(&guest, VB_REPORT, 0, 600 * 4096, 4096, WRITE, 0);
    publish(&guest, VB_REPORT, 0);
    EXPECT(balloon_write_status(&guest.balloon, 15, &result) == 0);
    EXPECT(result.chains == 2 && result.kept == 1 && result.discarded == 1 && result.error == EIO);
    free_memory(&guest);
}

/* A driver may fill all its queues before DRIVER_OK: what each comes to is told together. The
 * status again is no kick. */
/* Makes chains of each queue available, before DRIVER_OK: an inflate, two deflates, statistics and
 * a report. */
static void fill_all_queues(struct guest *guest, const uint32_t *pages)
{
    const uint32_t more[] = {600, 700};
    name_pages(guest, VB_INFLATE, pages, 3);
    for (int i = 0; i < 2; i++)
        name_pages(guest, VB_DEFLATE, more, 2);
    describe(guest, VB_STATISTICS, 0, buffer_of(VB_STATISTICS), 10, 0, 0);
    publish(guest, VB_STATISTICS, 0);
    describe(guest, VB_REPORT, 0, 700 * 4096, 4096, WRITE | NEXT, 1);
    describe(guest, VB_REPORT, 1, 2047 * 4096, 8192, WRITE, 0);
    publish(guest, VB_REPORT, 0);
}

static void all_queues_are_looked_at(void)
{
    static struct guest guest;
    static uint64_t words[12]; /* 768 pages */
    const uint32_t pages[] = {600, 3000, 9999};
    struct balloon_result result;
    make_memory(&guest, 0);
    EXPECT(balloon_init(&guest.balloon, guest.regions, 2, SKIPS) == VB_OK);
    guest.balloon.discard = fail_at_700;
    guest.balloon.ballooned = words;
    guest.balloon.ballooned_words = 12;
    start_features(&guest, LINUX_FEATURES, 8);
    fill_all_queues(&guest, pages);
    EXPECT(balloon_write_status(&guest.balloon, 15, &result) == 0);
    EXPECT(result.code == VB_OK && result.chains == 5 && !result.configuration && !result.more);
    EXPECT(result.interrupts == (1 << VB_INFLATE | 1 << VB_DEFLATE | 1 << VB_REPORT));
    EXPECT(result.pages == 2 + 4 + 3 && result.skipped == 1 && result.discarded == 1 + 1 &&
           result.in_holes == 1 + 1);
    EXPECT(result.kept == 1 && result.error == EIO && result.marked == 0 && result.unmarked == 2);
    name_pages(&guest, VB_INFLATE, pages, 1);
    EXPECT(balloon_write_status(&guest.balloon, 15, &result) == 0 && result.chains == 0 &&
           used_index(&guest, VB_INFLATE) == 1);
    EXPECT(balloon_write_status(&guest.balloon, 7, &result) != 0 && result.code == VB_NOTHING &&
           result.chains == 0);
    result = balloon_notify(&guest.balloon, VB_INFLATE);
    EXPECT(result.chains == 1 && result.marked == 1 && result.unmarked == 0 &&
           words[9] == 1ull << 24);
    for (uint16_t i = 0; i < 3; i++) {
        put(&guest, buffer_of(VB_DEFLATE) + 4 * i, pages[i % 2], 4);
        describe(&guest, VB_DEFLATE, i, buffer_of(VB_DEFLATE) + 4 * i, 4, 0, 0);
        publish(&guest, VB_DEFLATE, i);
    }
    result = balloon_notify(&guest.balloon, VB_DEFLATE);
    EXPECT(result.chains == 3 && result.pages == 3 && result.marked == 1 && result.unmarked == 1 &&
           words[9] == 0);
    for (int i = 0; i < 2; i++)
        name_pages(&guest, VB_DEFLATE, pages + 1, 2);
    result = balloon_notify(&guest.balloon, VB_DEFLATE);
    EXPECT(result.chains == 2 && result.pages == 2 && result.skipped == 2 && result.unmarked == 2);
    free_memory(&guest);
}

/* At DRIVER_OK a queue's fault is told beside what was served before it, and what a budget leaves
 * is told of any queue. */
static void a_look_at_all_queues_may_end_early(void)
{
    static struct guest guest;
    const uint32_t page = 900;
    struct balloon_result result;
    make_memory(&guest, 0);
    EXPECT(balloon_init(&guest.balloon, guest.regions, 2, REFUSES) == VB_OK);
    start_features(&guest, LINUX_FEATURES, 8);
    name_pages(&guest, VB_INFLATE, &page, 1);
    publish(&guest, VB_DEFLATE, 8);
    EXPECT(balloon_write_status(&guest.balloon, 15, &result) == 0);
    EXPECT(result.code == VB_BROKEN && result.rule == 1 && result.configuration &&
           result.chains == 1);
    EXPECT(result.interrupts == 1 << VB_INFLATE && used_index(&guest, VB_INFLATE) == 1 &&
           used_index(&guest, VB_DEFLATE) == 0);
    start_features(&guest, LINUX_FEATURES, 8);
    guest.balloon.most_chains = 1;
    for (int i = 0; i < 2; i++)
        name_pages(&guest, VB_DEFLATE, &page, 1);
    EXPECT(balloon_write_status(&guest.balloon, 15, &result) == 0 && result.chains == 1 &&
           result.more && !result.configuration);
    result = balloon_notify(&guest.balloon, VB_DEFLATE);
    EXPECT(result.chains == 1 && !result.more && used_index(&guest, VB_DEFLATE) == 2);
    guest.balloon.most_chains = 256;
    name_pages(&guest, VB_DEFLATE, &page, 1);
    publish(&guest, VB_DEFLATE, 8);
    result = balloon_notify(&guest.balloon, VB_DEFLATE);
    EXPECT(result.code == VB_BROKEN && result.chains == 1 && result.interrupts == 1 << VB_DEFLATE &&
           used_index(&guest, VB_DEFLATE) == 3);
    free_memory(&guest);
}

void test_notices(void)
{
    RUN(a_notice_has_an_end());
    RUN(a_driver_never_stops());
    RUN(a_notice_keeps_to_its_budget());
    RUN(an_error_of_one_queue_is_told_with_the_others());
    RUN(all_queues_are_looked_at());
    RUN(a_look_at_all_queues_may_end_early());
}
