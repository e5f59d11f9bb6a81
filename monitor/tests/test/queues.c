/* Queues that start at an index and stop, as those of a backend or of a migration. */
#include "test.h"

static VbQueueStart there(uint32_t kind, uint16_t size, uint16_t next)
{
    return (VbQueueStart){table_of(kind), avail_of(kind), used_of(kind), size, next};
}

/* The driver's rings after a number of requests, each of which was given back. */
static void leave_rings(struct guest *guest, uint32_t kind, uint16_t next)
{
    guest->published[kind] = next;
    put(guest, avail_of(kind) + 2, next, 2);
    put(guest, used_of(kind) + 2, next, 2);
}

static void begin(struct guest *guest, uint64_t features)
{
    make_memory(guest, 0);
    EXPECT(balloon_init(&guest->balloon, guest->regions, 2, REFUSES) == VB_OK);
    start_features(guest, features, 8);
}

/* Before DRIVER_OK, at the last index before 0; then stopped, and started beside others that
  * run. */
static void a_queue_goes_on_at_its_index(void)
{
    static struct guest guest;
    struct balloon_result result;
    const uint32_t page = 700;
    uint16_t next = 7;
    begin(&guest, LINUX_FEATURES);
    leave_rings(&guest, VB_INFLATE, 65535);
    EXPECT(balloon_start_queue(&guest.balloon, VB_INFLATE, there(VB_INFLATE, 8, 65535)) == VB_OK);
    const VbQueue *queue = ring_of_kind(&guest.balloon, VB_INFLATE);
    EXPECT(queue->table == table_of(0) && queue->avail == avail_of(0) &&
           queue->used == used_of(0) && queue->size == 8);
    EXPECT(queue->next_avail == 65535 && queue->next_used == 65535 &&
           guest.balloon.state.device.status == 11);
    name_pages(&guest, VB_INFLATE, &page, 1);
    EXPECT(balloon_write_status(&guest.balloon, 15, &result) == 0 && result.chains == 1 &&
           result.pages == 1);
    EXPECT(used_index(&guest, VB_INFLATE) == 0);
    name_pages(&guest, VB_INFLATE, &page, 1);
    EXPECT(balloon_notify(&guest.balloon, VB_INFLATE).chains == 1 &&
           used_index(&guest, VB_INFLATE) == 1);
    EXPECT(balloon_stop_queue(&guest.balloon, VB_INFLATE, &next) == VB_OK && next == 1);
    EXPECT(same_queue(ring_of_kind(&guest.balloon, VB_INFLATE), &(VbQueue){.size = 0}));
    EXPECT(balloon_notify(&guest.balloon, VB_INFLATE).code == VB_MISPLACED);
    EXPECT(balloon_stop_queue(&guest.balloon, VB_INFLATE, &next) == VB_MISPLACED && next == 0);
    EXPECT(ring_of_kind(&guest.balloon, VB_DEFLATE)->size == 8 &&
           guest.balloon.state.device.status == 15);
    name_pages(&guest, VB_INFLATE, &page, 1);
    EXPECT(balloon_start_queue(&guest.balloon, VB_INFLATE, there(VB_INFLATE, 8, 1)) == VB_OK);
    EXPECT(balloon_notify(&guest.balloon, VB_INFLATE).chains == 1 &&
           used_index(&guest, VB_INFLATE) == 2);
    free_memory(&guest);
}

static void count_calls(void *context, const VbStatistic *figures, uint32_t count)
{
    EXPECT(count == 1 && figures[0].value == 5);
    ++*(unsigned *)context;
}

/* A buffer that is held is forgotten with its queue, which resumes at the buffer: it is taken
 * again. */
static void a_held_buffer_is_taken_again(void)
{
    static struct guest guest;
    struct balloon_result result;
    unsigned calls = 0;
    uint16_t next = 7;
    begin(&guest, LINUX_FEATURES);
    guest.balloon.context = &calls;
    guest.balloon.on_statistics = count_calls;
    leave_rings(&guest, VB_STATISTICS, 9);
    EXPECT(balloon_start_queue(&guest.balloon, VB_STATISTICS, there(VB_STATISTICS, 8, 9)) == VB_OK);
    put(&guest, buffer_of(VB_STATISTICS) + 2, 5, 8);
    describe(&guest, VB_STATISTICS, 0, buffer_of(VB_STATISTICS), 10, 0, 0);
    publish(&guest, VB_STATISTICS, 0);
    EXPECT(balloon_write_status(&guest.balloon, 15, &result) == 0 && calls == 1 &&
           guest.balloon.state.held.statistics == 1);
    EXPECT(balloon_stop_queue(&guest.balloon, VB_INFLATE, &next) == VB_OK && next == 0 &&
           guest.balloon.state.held.statistics == 1);
    EXPECT(balloon_start_queue(&guest.balloon, VB_INFLATE, there(VB_INFLATE, 8, 0)) == VB_OK &&
           guest.balloon.state.held.statistics == 1);
    EXPECT(balloon_stop_queue(&guest.balloon, VB_STATISTICS, &next) == VB_OK && next == 9 &&
           guest.balloon.state.held.statistics == 0);
    EXPECT(balloon_ask_statistics(&guest.balloon).code == VB_NOTHING);
    EXPECT(balloon_start_queue(&guest.balloon, VB_STATISTICS, there(VB_STATISTICS, 8, 9)) == VB_OK);
    EXPECT(balloon_notify(&guest.balloon, VB_STATISTICS).chains == 1 && calls == 2 &&
           guest.balloon.state.held.statistics == 1);
    EXPECT(balloon_start_queue(&guest.balloon, VB_STATISTICS, there(VB_STATISTICS, 8, 9)) ==
           VB_OK); /* over itself */
    EXPECT(guest.balloon.state.held.statistics == 0 &&
           balloon_notify(&guest.balloon, VB_STATISTICS).chains == 1 && calls == 3);
    EXPECT(balloon_ask_statistics(&guest.balloon).chains == 1 &&
           used_index(&guest, VB_STATISTICS) == 10);
    publish(&guest, VB_STATISTICS, 0);
    EXPECT(balloon_notify(&guest.balloon, VB_STATISTICS).chains == 1 && calls == 4);
    EXPECT(balloon_forget_held(&guest.balloon, VB_STATISTICS) == VB_OK &&
           guest.balloon.state.held.statistics == 0);
    EXPECT(balloon_forget_held(&guest.balloon, VB_STATISTICS) == VB_NOTHING &&
           guest.balloon.state.held.statistics == 0);
    EXPECT(ring_of_kind(&guest.balloon, VB_STATISTICS)->next_avail == 11 &&
           used_index(&guest, VB_STATISTICS) == 10);
    free_memory(&guest);
}

/* A start that is refused, and leaves all as it was. */
static void is_refused(struct guest *guest, uint32_t kind, VbQueueStart start, uint32_t code)
{
    const VbBalloon before = guest->balloon.state;
    EXPECT(balloon_start_queue(&guest->balloon, kind, start) == code);
    EXPECT(memcmp(&before, &guest->balloon.state, sizeof before) == 0);
}

/* Each refusal, where what is tested after it is wrong, too. */
static void starts_are_refused_in_their_order(void)
{
    static struct guest guest;
    struct balloon_result result;
    const VbQueueStart nowhere = {8, 1, 2, 7, 3};
    uint16_t next = 7;
    begin(&guest, VERSION_1 | REPORTING);
    is_refused(&guest, VB_NO_KIND, nowhere, VB_NO_QUEUE);
    is_refused(&guest, UINT32_MAX, nowhere, VB_NO_QUEUE);
    is_refused(&guest, VB_STATISTICS, nowhere, VB_NO_QUEUE);
    is_refused(&guest, VB_STATISTICS, there(VB_STATISTICS, 8, 3), VB_NO_QUEUE);
    is_refused(&guest, VB_REPORT, nowhere, VB_MISPLACED);
    EXPECT(balloon_stop_queue(&guest.balloon, VB_NO_KIND, &next) == VB_NO_QUEUE && next == 0);
    const uint16_t sizes[] = {0, 3, 255, 257, 768, 2048, 65535};
    for (size_t i = 0; i < sizeof sizes / sizeof *sizes; i++)
        is_refused(&guest, VB_INFLATE, there(VB_INFLATE, sizes[i], 3), VB_MISPLACED);
    const uint64_t end = HIGH_ADDRESS + HIGH_MIB * MIB, hole = LOW_MIB * MIB;
    const VbQueueStart wrong[] = {
        {0x1008, 0x2000, 0x3000, 8, 3},         {0x1000, 0x2001, 0x3000, 8, 3},
        {0x1000, 0x2000, 0x3002, 8, 3},         {end - 112, 0x2000, 0x3000, 8, 3},
        {0x1000, end - 20, 0x3000, 8, 3},       {0x1000, 0x2000, end - 68, 8, 3},
        {hole - 112, 0x2000, 0x3000, 8, 3},     {0x1000, hole - 20, 0x3000, 8, 3},
        {0x1000, 0x2000, hole - 68, 8, 3},      {hole, 0x2000, 0x3000, 8, 3},
        {0x1000, UINT64_MAX - 1, 0x3000, 8, 3},
    };
    for (size_t i = 0; i < sizeof wrong / sizeof *wrong; i++)
        is_refused(&guest, VB_INFLATE, wrong[i], VB_MISPLACED);
    EXPECT(balloon_start_queue(&guest.balloon, VB_INFLATE,
                               (VbQueueStart){end - 128, hole - 22, hole - 72, 8, 3}) == VB_OK);
    /* The driver has published nothing there: its index, 0, isn't one to which 3 may go on. */
    EXPECT(balloon_write_status(&guest.balloon, 15, &result) == 0 && result.code == VB_BROKEN &&
           result.rule == 7);
    is_refused(&guest, VB_STATISTICS, nowhere, VB_NEEDS_RESET);
    EXPECT(balloon_write_status(&guest.balloon, 207, &result) == 0);
    is_refused(&guest, VB_STATISTICS, nowhere, VB_NOT_READY);
    EXPECT(balloon_stop_queue(&guest.balloon, VB_INFLATE, &next) == VB_OK &&
           next == 3); /* a queue stops at any status */
    const uint8_t steps[] = {0, 1, 3};
    for (size_t i = 0; i < sizeof steps; i++) {
        EXPECT(balloon_write_status(&guest.balloon, steps[i], &result) == 0);
        is_refused(&guest, VB_INFLATE, there(VB_INFLATE, 8, 0), VB_NOT_READY);
    }
    free_memory(&guest);
}

/* What has started is saved, before DRIVER_OK too. */
static void a_started_queue_is_saved(void)
{
    static struct guest guest;
    uint8_t bytes[VB_STATE_BYTES];
    begin(&guest, LINUX_FEATURES);
    EXPECT(balloon_start_queue(&guest.balloon, VB_REPORT, there(VB_REPORT, 8, 5)) == VB_OK);
    EXPECT(balloon_save(&guest.balloon, bytes, sizeof bytes) == VB_OK);
    EXPECT(balloon_init(&guest.balloon, guest.regions, 2, REFUSES) == VB_OK);
    EXPECT(balloon_restore(&guest.balloon, bytes, sizeof bytes) == VB_OK);
    EXPECT(guest.balloon.state.device.report.next_avail == 5 &&
           guest.balloon.state.device.report.next_used == 5);
    free_memory(&guest);
}

/* Kinds by features that no device has. */
static void kinds_are_told_by_features(void)
{
    EXPECT(vb_kind_of(0, 1) == VB_DEFLATE && vb_kind_of(0, 2) == VB_NO_KIND &&
           vb_kind_of(REPORTING, 2) == VB_REPORT);
    EXPECT(vb_kind_of(STATS_VQ | REPORTING, 3) == VB_REPORT &&
           vb_kind_of(STATS_VQ, 2) == VB_STATISTICS);
    EXPECT(vb_kind_of(UINT64_MAX, 4) == VB_REPORT && vb_kind_of(UINT64_MAX, 5) == VB_NO_KIND &&
           vb_kind_of(UINT64_MAX, UINT32_MAX) == VB_NO_KIND);
}

void test_queues(void)
{
    RUN(a_queue_goes_on_at_its_index());
    RUN(a_held_buffer_is_taken_again());
    RUN(starts_are_refused_in_their_order());
    RUN(a_started_queue_is_saved());
    RUN(kinds_are_told_by_features());
}
