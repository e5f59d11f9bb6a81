/* A notice that pauses amid a request: how much each call does, what comes between two calls, and
 * that nothing is told or given back twice. */
#include "test.h"

enum {
    PORTION = VB_MAX_BYTES / 4,
    FIRST = 800,
    PAGES = 4096,
    SET_WORDS = 24 * MIB / 4096 / 64,
    BUFFER = 2 * MIB,
    MOST = 1024
};
enum { LONGEST = VB_LONGEST_REQUEST, PIECES = 4 };
static const VbSettings HOLDS = {
    .offered = 1ull << 32 | 0x27, .needs_must_tell = 1, .holds_deflates = 1};

/* How many pages a monitor was told of each kind, and was to discard. */
struct sums {
    uint64_t told[2], gone;
};

static void sum_pages(void *context, uint32_t kind, const VbRun *runs, uint32_t count)
{
    struct sums *sums = context;
    EXPECT(kind <= VB_DEFLATE);
    for (uint32_t i = 0; i < count; i++)
        sums->told[kind] += runs[i].count;
}

static int sum_gone(void *context, const struct balloon_region *region, uint64_t from,
                    uint64_t length)
{
    struct sums *sums = context;
    EXPECT(from + length <= region->length);
    sums->gone += length / 4096;
    return 0;
}

static void begin(struct guest *guest, VbSettings settings, struct sums *sums, uint64_t *sets)
{
    start(guest, 0, settings, LINUX_FEATURES, 8);
    memset(sums, 0, sizeof *sums);
    memset(sets, 0, 2 * SET_WORDS * sizeof *sets);
    guest->balloon.context = sums;
    guest->balloon.on_pages = sum_pages;
    guest->balloon.discard = sum_gone;
    guest->balloon.ballooned = sets;
    guest->balloon.deflating = sets + SET_WORDS;
    guest->balloon.ballooned_words = SET_WORDS;
    guest->balloon.most_pages = MOST;
}

static uint64_t in_set(const uint64_t *set)
{
    return vb_count_ballooned(set, SET_WORDS);
}

/* Publishes a request of `count` numbers from an address on: every second page of the upper region,
 * over and over. */
static void publish_numbers(struct guest *guest, uint32_t kind, uint64_t address, uint32_t count)
{
    for (uint32_t i = 0; i < count; i++)
        put(guest, address + 4ull * i, HIGH_ADDRESS / 4096 + 2 * (i % (FIRST / 2)), 4);
    describe(guest, kind, 0, address, 4 * count, 0, 0);
    publish(guest, kind, 0);
}

/* A notice pauses after half of a request. */
static void pause_amid(struct guest *guest, struct sums *sums, uint64_t *sets)
{
    begin(guest, REFUSES, sums, sets);
    publish_numbers(guest, VB_INFLATE, BUFFER, 2 * MOST);
    EXPECT(balloon_notify(&guest->balloon, VB_INFLATE).more && sums->gone == MOST);
}

/* What calls come to until no more is left, of which each tells its budget of numbers and less than
 * a portion more. */
static struct balloon_result serve_all(struct guest *guest, uint32_t kind, uint32_t *calls)
{
    struct balloon_result one, all = {.code = VB_NOTHING};
    *calls = 0;
    do {
        one = balloon_notify(&guest->balloon, kind);
        EXPECT(one.code == VB_OK && one.pages + one.skipped < MOST + PORTION &&
               one.interrupts == (one.chains ? 1u << kind : 0));
        EXPECT(!one.more || one.pages + one.skipped >= MOST);
        all.pages += one.pages, all.skipped += one.skipped, all.marked += one.marked,
            all.chains += one.chains;
        all.discarded += one.discarded, all.in_holes += one.in_holes;
        EXPECT(++*calls <= LONGEST / MOST);
    } while (one.more);
    return all;
}

/* The longest request, of 1,048,576 scattered numbers in four pieces of 1 MiB: one budget after the
 * other, and given back once. */
static void the_longest_request_in_turns(void)
{
    static struct guest guest;
    static uint64_t sets[2 * SET_WORDS];
    struct sums sums;
    uint32_t calls;
    begin(&guest, REFUSES, &sums, sets);
    for (uint32_t i = 0; i < LONGEST; i++)
        put(&guest, BUFFER + 4ull * i, HIGH_ADDRESS / 4096 + 2 * (i % (FIRST / 2)), 4);
    for (uint16_t i = 0; i < PIECES; i++)
        describe(&guest, VB_INFLATE, i, BUFFER + (uint64_t)i * LONGEST, LONGEST,
                 i + 1 < PIECES ? NEXT : 0, i + 1);
    publish(&guest, VB_INFLATE, 0);
    struct balloon_result all = serve_all(&guest, VB_INFLATE, &calls);
    EXPECT(calls == LONGEST / MOST && all.pages == LONGEST && all.discarded == LONGEST &&
           all.chains == 1 && all.in_holes == 0);
    EXPECT(sums.told[VB_INFLATE] == LONGEST && sums.gone == LONGEST && in_set(sets) == FIRST / 2);
    EXPECT(used_index(&guest, VB_INFLATE) == 1 && last_used(&guest, VB_INFLATE) == 0);
    EXPECT(balloon_notify(&guest.balloon, VB_INFLATE).code == VB_NOTHING);
    free_memory(&guest);
}

/* Numbers that are skipped count as well: a request of them alone takes as many calls. */
static void skipped_numbers_count(void)
{
    static struct guest guest;
    static uint64_t sets[2 * SET_WORDS];
    struct sums sums;
    uint32_t calls;
    begin(&guest, SKIPS, &sums, sets);
    memset(at(&guest, BUFFER), 0xff, 4 * 4 * MOST);
    describe(&guest, VB_INFLATE, 0, BUFFER, 4 * 4 * MOST, 0, 0);
    publish(&guest, VB_INFLATE, 0);
    struct balloon_result all = serve_all(&guest, VB_INFLATE, &calls);
    EXPECT(calls == 4 && all.pages == 0 && all.skipped == 4 * MOST && all.chains == 1 &&
           used_index(&guest, VB_INFLATE) == 1);
    free_memory(&guest);
}

/* A request of just the budget, and one of a number more, with a portion before them: where each
 * call ends. */
static void where_calls_end(void)
{
    static const struct {
        uint32_t before, count, pages[3];
        uint16_t used[3];
    } rows[] = {
        {0, MOST, {MOST, 0, 0}, {1, 1, 1}},
        {0, MOST + 1, {MOST, 1, 0}, {0, 1, 1}},
        {1, MOST, {MOST + 1, 0, 0}, {2, 2, 2}},
        {1, MOST + 1, {MOST + 1, 1, 0}, {1, 2, 2}},
        {1, 3 * MOST, {MOST + 1, MOST, MOST}, {1, 1, 2}},
        {PORTION - 1, 2 * MOST, {MOST + PORTION - 1, MOST, 0}, {1, 2, 2}},
    };
    static struct guest guest;
    static uint64_t sets[2 * SET_WORDS];
    struct sums sums;
    for (size_t row = 0; row < sizeof rows / sizeof *rows; row++) {
        begin(&guest, REFUSES, &sums, sets);
        for (uint32_t i = 0; i < rows[row].before + rows[row].count; i++)
            put(&guest, BUFFER + 4ull * i, FIRST + i, 4);
        describe(&guest, VB_INFLATE, 0, BUFFER, 4 * rows[row].before, 0, 0);
        describe(&guest, VB_INFLATE, 1, BUFFER + 4 * rows[row].before, 4 * rows[row].count, 0, 0);
        if (rows[row].before)
            publish(&guest, VB_INFLATE, 0);
        publish(&guest, VB_INFLATE, 1);
        for (uint32_t i = 0; i < 3; i++) {
            EXPECT(balloon_notify(&guest.balloon, VB_INFLATE).pages == rows[row].pages[i]);
            EXPECT(used_index(&guest, VB_INFLATE) == rows[row].used[i]);
        }
        free_memory(&guest);
    }
}

/* Two queues pause, a third one is served between, and each continues with its own chain. */
static void two_queues_pause(void)
{
    static struct guest guest;
    static uint64_t sets[2 * SET_WORDS];
    struct sums sums;
    const uint32_t other = FIRST;
    begin(&guest, REFUSES, &sums, sets);
    publish_numbers(&guest, VB_INFLATE, BUFFER, 3 * MOST);
    publish_numbers(&guest, VB_DEFLATE, BUFFER + MIB, 2 * MOST);
    for (uint32_t i = 1; i <= 3; i++) {
        struct balloon_result result = balloon_notify(&guest.balloon, VB_INFLATE);
        EXPECT(result.pages == MOST && result.discarded == MOST && result.more == (i < 3) &&
               result.chains == (i == 3));
        result = balloon_notify(&guest.balloon, VB_DEFLATE);
        EXPECT(result.pages == (i < 3 ? MOST : 0) && result.discarded == 0 &&
               result.more == (i < 2) && result.chains == (i == 2));
        EXPECT(balloon_notify(&guest.balloon, VB_STATISTICS).code == VB_NOTHING);
    }
    EXPECT(sums.told[VB_INFLATE] == 3 * MOST && sums.told[VB_DEFLATE] == 2 * MOST &&
           sums.gone == 3 * MOST);
    EXPECT(used_index(&guest, VB_INFLATE) == 1 && used_index(&guest, VB_DEFLATE) == 1);
    name_pages(&guest, VB_INFLATE, &other, 1);
    EXPECT(balloon_notify(&guest.balloon, VB_INFLATE).pages == 1 &&
           used_index(&guest, VB_INFLATE) == 2);
    free_memory(&guest);
}

/* A deflate that pauses is held once all of it was told, with all of its pages; before it can't be
 * granted. */
static void a_paused_deflate_is_held(void)
{
    static struct guest guest;
    static uint64_t sets[2 * SET_WORDS];
    struct sums sums;
    uint32_t pages, calls;
    begin(&guest, HOLDS, &sums, sets);
    publish_numbers(&guest, VB_INFLATE, BUFFER, FIRST / 2);
    EXPECT(serve_all(&guest, VB_INFLATE, &calls).marked == FIRST / 2 && calls == 1);
    publish_numbers(&guest, VB_DEFLATE, BUFFER, 2 * MOST + 1);
    for (uint32_t i = 1; i <= 2; i++) {
        struct balloon_result result = balloon_notify(&guest.balloon, VB_DEFLATE);
        EXPECT(result.code == VB_OK && result.more && !result.held && result.pages == MOST &&
               !balloon_held_deflate(&guest.balloon, &pages));
        EXPECT(balloon_give_deflate(&guest.balloon).code == VB_NOTHING);
    }
    struct balloon_result result = balloon_notify(&guest.balloon, VB_DEFLATE);
    EXPECT(result.code == VB_OK && !result.more && result.held &&
           result.held_pages == 2 * MOST + 1 && result.pages == 1);
    EXPECT(used_index(&guest, VB_DEFLATE) == 0 && in_set(sets) == FIRST / 2);
    result = balloon_give_deflate(&guest.balloon);
    EXPECT(result.code == VB_OK && result.chains == 1 && result.marked == FIRST / 2 &&
           in_set(sets) == 0);
    free_memory(&guest);
}

static void reset(struct guest *guest)
{
    start_features(guest, LINUX_FEATURES, 8);
    struct balloon_result result;
    EXPECT(balloon_write_status(&guest->balloon, 15, &result) == 0 && result.code == VB_NOTHING);
}

static void stop_and_start(struct guest *guest)
{
    uint16_t next;
    const VbQueue queue = guest->balloon.state.device.inflate;
    const VbQueueStart start_at = {queue.table, queue.avail, queue.used, queue.size, 0};
    EXPECT(balloon_stop_queue(&guest->balloon, VB_INFLATE, &next) == VB_OK && next == 0);
    EXPECT(balloon_start_queue(&guest->balloon, VB_INFLATE, start_at) == VB_OK);
}

static void save_and_restore(struct guest *guest)
{
    uint8_t bytes[VB_STATE_BYTES];
    EXPECT(balloon_save(&guest->balloon, bytes, sizeof bytes) == VB_OK &&
           balloon_restore(&guest->balloon, bytes, sizeof bytes) == VB_OK);
}

/* After a reset, a stop or a restore no notice continues: what is published then is served from its
 * first number on. */
static void no_notice_goes_on_after(void (*change)(struct guest *guest), bool is_published)
{
    static struct guest guest;
    static uint64_t sets[2 * SET_WORDS];
    struct sums sums;
    pause_amid(&guest, &sums, sets);
    change(&guest);
    memset(&sums, 0, sizeof sums);
    if (!is_published) {
        EXPECT(balloon_notify(&guest.balloon, VB_INFLATE).code == VB_NOTHING && sums.gone == 0);
        publish_numbers(&guest, VB_INFLATE, BUFFER, 2 * MOST);
    }
    for (uint32_t i = 1; i <= 2; i++) {
        struct balloon_result result = balloon_notify(&guest.balloon, VB_INFLATE);
        EXPECT(result.code == VB_OK && result.pages == MOST && result.more == (i < 2) &&
               sums.gone == i * MOST);
    }
    EXPECT(used_index(&guest, VB_INFLATE) == 1);
    free_memory(&guest);
}

/* The regions that hold the numbers go, or the numbers become wrong, while a notice pauses: that
 * breaks a rule, as between any accesses. */
static void what_changes_amid_a_pause(void)
{
    static struct guest guest;
    static uint64_t sets[2 * SET_WORDS];
    struct sums sums;
    for (int regions_go = 0; regions_go < 2; regions_go++) {
        begin(&guest, REFUSES, &sums, sets);
        publish_numbers(&guest, VB_INFLATE, HIGH_ADDRESS + 4 * MIB, 2 * MOST);
        EXPECT(balloon_notify(&guest.balloon, VB_INFLATE).more);
        if (regions_go)
            EXPECT(balloon_set_regions(&guest.balloon, guest.regions, 1) == VB_OK);
        else
            put(&guest, HIGH_ADDRESS + 4 * MIB + 4 * MOST, 1u << 30, 4);
        struct balloon_result result = balloon_notify(&guest.balloon, VB_INFLATE);
        EXPECT(result.code == VB_BROKEN && result.rule == (regions_go ? 6 : 9) &&
               result.configuration && !result.more && result.pages == 0);
        EXPECT(sums.gone == MOST && used_index(&guest, VB_INFLATE) == 0);
        EXPECT(balloon_notify(&guest.balloon, VB_INFLATE).code == VB_NEEDS_RESET &&
               sums.gone == MOST);
        free_memory(&guest);
    }
}

/* Another queue breaks a rule while a notice pauses, which asks for a reset then. */
static void what_another_queue_breaks_amid_a_pause(void)
{
    static struct guest guest;
    static uint64_t sets[2 * SET_WORDS];
    struct sums sums;
    pause_amid(&guest, &sums, sets);
    publish_numbers(&guest, VB_DEFLATE, HIGH_ADDRESS + 4 * MIB, 1);
    put(&guest, HIGH_ADDRESS + 4 * MIB, 1u << 30, 4);
    EXPECT(balloon_notify(&guest.balloon, VB_DEFLATE).code == VB_BROKEN);
    EXPECT(balloon_notify(&guest.balloon, VB_INFLATE).code == VB_NEEDS_RESET && sums.gone == MOST);
    free_memory(&guest);
}

/* Pages that are to stay from a pause on aren't discarded, though their notice began before. */
static void pages_stay_from_a_pause_on(void)
{
    static struct guest guest;
    static uint64_t sets[2 * SET_WORDS];
    struct sums sums;
    pause_amid(&guest, &sums, sets);
    guest.balloon.keeps_pages = true;
    struct balloon_result result = balloon_notify(&guest.balloon, VB_INFLATE);
    EXPECT(result.code == VB_OK && result.pages == MOST && result.kept == MOST &&
           result.discarded == 0 && sums.gone == MOST && used_index(&guest, VB_INFLATE) == 1);
    free_memory(&guest);
}

/* A monitor that lost what pauses: the next notice begins the chain from its first number, and that
 * harms nothing. */
static void a_pause_is_lost(void)
{
    static struct guest guest;
    static uint64_t sets[2 * SET_WORDS];
    struct sums sums;
    uint32_t calls;
    pause_amid(&guest, &sums, sets);
    memset(guest.balloon.paused, 0, sizeof guest.balloon.paused);
    struct balloon_result all = serve_all(&guest, VB_INFLATE, &calls);
    EXPECT(calls == 2 && all.pages == 2 * MOST && all.chains == 1 && in_set(sets) == FIRST / 2 &&
           used_index(&guest, VB_INFLATE) == 1);
    free_memory(&guest);
}

#ifdef RUST_SHIM
static void a_reset_before_a_pause(void)
{
}
static void pages_stay_from_a_hook_on(void)
{
}
static void private_pages_stay_from_a_hook_on(void)
{
}
#else
static struct {
    struct guest *guest;
    uint32_t calls;
} hooked;

static void reset_in_fourth(void *context, uint32_t kind, const VbRun *runs, uint32_t count)
{
    struct balloon_result result;
    sum_pages(context, kind, runs, count);
    if (++hooked.calls == MOST / PORTION)
        EXPECT(balloon_write_status(&hooked.guest->balloon, 0, &result) == 0);
}

/* A hook resets the device within the portion after which its notice would pause: it ends, and
 * doesn't go on later. */
static void a_reset_before_a_pause(void)
{
    static struct guest guest;
    static uint64_t sets[2 * SET_WORDS];
    struct sums sums;
    begin(&guest, REFUSES, &sums, sets);
    hooked.guest = &guest, hooked.calls = 0;
    guest.balloon.on_pages = reset_in_fourth;
    publish_numbers(&guest, VB_INFLATE, BUFFER, 2 * MOST);
    struct balloon_result result = balloon_notify(&guest.balloon, VB_INFLATE);
    EXPECT(result.code == VB_STALE && !result.more && result.pages == MOST &&
           sums.gone == MOST - PORTION);
    EXPECT(guest.balloon.state.device.status == 0 && in_set(sets) == 0);
    EXPECT(balloon_notify(&guest.balloon, VB_INFLATE).code == VB_NOT_READY &&
           sums.gone == MOST - PORTION);
    free_memory(&guest);
}

static void keep_from_second(void *context, uint32_t kind, const VbRun *runs, uint32_t count)
{
    sum_pages(context, kind, runs, count);
    hooked.guest->balloon.keeps_pages = ++hooked.calls >= 2;
}

/* So are pages that are to stay from a hook on. */
static void pages_stay_from_a_hook_on(void)
{
    static struct guest guest;
    static uint64_t sets[2 * SET_WORDS];
    struct sums sums;
    begin(&guest, REFUSES, &sums, sets);
    hooked.guest = &guest, hooked.calls = 0;
    guest.balloon.on_pages = keep_from_second;
    publish_numbers(&guest, VB_INFLATE, BUFFER, MOST);
    struct balloon_result result = balloon_notify(&guest.balloon, VB_INFLATE);
    EXPECT(result.code == VB_OK && result.pages == MOST && result.discarded == PORTION &&
           result.kept == MOST - PORTION && sums.gone == PORTION);
    free_memory(&guest);
}

/* Nor are those of private memory, which go together else. */
static void private_pages_stay_from_a_hook_on(void)
{
    static struct guest guest;
    static const uint32_t pages[] = {700, 702};
    struct sums sums = {.gone = 0};
    start(&guest, BALLOON_PRIVATE, REFUSES, LINUX_FEATURES, 4);
    hooked.guest = &guest, hooked.calls = 1;
    guest.balloon.context = &sums;
    guest.balloon.on_pages = keep_from_second;
    memset(at(&guest, pages[0] * 4096ull), 1, 4096);
    name_pages(&guest, VB_INFLATE, pages, 2);
    struct balloon_result result = balloon_notify(&guest.balloon, VB_INFLATE);
    EXPECT(result.kept == 2 && result.discarded == 0 && resident(&guest, pages[0]));
    free_memory(&guest);
}
#endif

void test_pauses(void)
{
    RUN(the_longest_request_in_turns());
    RUN(skipped_numbers_count());
    RUN(where_calls_end());
    RUN(two_queues_pause());
    RUN(a_paused_deflate_is_held());
    RUN(no_notice_goes_on_after(reset, false));
    RUN(no_notice_goes_on_after(stop_and_start, true));
    RUN(no_notice_goes_on_after(save_and_restore, true));
    RUN(what_changes_amid_a_pause());
    RUN(pages_stay_from_a_pause_on());
    RUN(pages_stay_from_a_hook_on());
    RUN(private_pages_stay_from_a_hook_on());
    RUN(what_another_queue_breaks_amid_a_pause());
    RUN(a_pause_is_lost());
    RUN(a_reset_before_a_pause());
}
