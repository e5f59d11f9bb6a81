/* Tests of what vb.h refuses of a notice: each code in the header's order, each rule of chains, and
 * that nothing moves then. */
#include "guest.h"

enum { SIZE = 8, RESERVED = 16, MEMORY = 24 * MIB };

static const uint64_t FEATURES = 1ull << 32 | 0x2f; /* Linux's, and hints */
static struct guest guest;
static struct {
    uint32_t runs, figures;
    VbRun run[VB_MAX_RUNS];
} seen;

static void see_pages(void *context, uint32_t kind, const VbRun *runs, uint32_t count)
{
    (void)context, (void)kind;
    seen.runs = count;
    memcpy(seen.run, runs, count * sizeof *runs);
}

static void see_figures(void *context, const VbStatistic *figures, uint32_t count)
{
    (void)context, (void)figures;
    seen.figures = count;
}

static int keep(void *context, const struct balloon_region *region, uint64_t from, uint64_t length)
{
    (void)context, (void)region, (void)from, (void)length;
    return 0;
}

/* A driver that restarts, over the memory that there is. */
static void begin(uint64_t features, uint16_t size)
{
    const VbSettings settings = {.offered = FEATURES, .reserved_pages = RESERVED};
    struct balloon_result result;
    EXPECT(balloon_init(&guest.balloon, guest.regions, 2, settings) == VB_OK);
    guest.balloon.on_pages = see_pages;
    guest.balloon.on_statistics = see_figures;
    guest.balloon.discard = keep;
    start_features(&guest, features, size);
    EXPECT(balloon_write_status(&guest.balloon, 15, &result) == 0);
}

/* The driver's index says `index`, and each entry is this head. */
static void offer(uint32_t kind, uint16_t head, uint16_t index)
{
    put(&guest, avail_of(kind) + 2, index, 2);
    for (uint32_t i = 0; i < guest.size; i++)
        put(&guest, avail_of(kind) + 4 + 2 * i, head, 2);
}

/* Whether nothing has changed, but for the status. */
static bool stands(const VbDevice *one, const VbDevice *other)
{
    return one->features == other->features && one->target == other->target &&
           one->actual == other->actual && same_queue(&one->inflate, &other->inflate) &&
           same_queue(&one->deflate, &other->deflate) &&
           same_queue(&one->statistics, &other->statistics) &&
           same_queue(&one->report, &other->report) && same_queue(&one->hint, &other->hint) &&
           memcmp(&one->round, &other->round, sizeof one->round) == 0 &&
           one->settings.memory_end == other->settings.memory_end;
}

/* A chain that its queue takes: a request of one page, four figures, a report of one page, or an
 * id. */
static void offer_right(uint32_t kind)
{
    put(&guest, 0x20000, 700, 4);
    describe(&guest, kind, 0, 0x20000,
             kind == VB_REPORT       ? 4096
             : kind == VB_STATISTICS ? 40
                                     : 4,
             kind == VB_REPORT ? WRITE : 0, 0);
    offer(kind, 0, 1);
}

/* ---- the order of refusals */

/* What a notice is refused for, in the header's order. */
enum { KIND, READY, RESET, FEATURE, PLACE, OBSTACLES };
static const uint32_t CODES[] = {VB_NO_QUEUE, VB_NOT_READY, VB_NEEDS_RESET, VB_NO_QUEUE,
                                 VB_MISPLACED};

/* A notice of a right chain with these obstacles in its way (bits). */
static struct balloon_result attempt(uint32_t kind, uint32_t obstacles)
{
    VbDevice *device = &guest.balloon.state.device;
    device->status =
        (uint8_t)((obstacles & 1 << READY ? 11 : 15) | (obstacles & 1 << RESET ? 64 : 0));
    if (obstacles & 1 << FEATURE)
        device->features &= ~(uint64_t)(STATS_VQ | REPORTING | VB_F_FREE_PAGE_HINT);
    if (obstacles & 1 << PLACE)
        ring_of_kind(&guest.balloon, kind)->size = 0;
    return balloon_notify(&guest.balloon, obstacles & 1 << KIND ? VB_NO_KIND : kind);
}

/* Of all sets of obstacles that a notice can meet the first one answers, and nothing moves; with
 * none the chain is served. */
static void first_obstacle_answers(uint32_t kind, uint32_t possible)
{
    for (uint32_t obstacles = 0; obstacles < 1 << OBSTACLES; obstacles++) {
        uint32_t first = 0;
        if (obstacles & ~possible)
            continue;
        begin(FEATURES, SIZE);
        offer_right(kind);
        while (first < OBSTACLES && !(obstacles & 1 << first))
            first++;
        EXPECT(attempt(kind, obstacles).code == (first < OBSTACLES ? CODES[first] : VB_OK));
        VbDevice before = guest.balloon.state.device;
        EXPECT(obstacles == 0 || attempt(kind, obstacles).code == CODES[first]);
        EXPECT(obstacles == 0 || (stands(&guest.balloon.state.device, &before) &&
                                  before.status == guest.balloon.state.device.status));
        EXPECT(used_index(&guest, kind) == (obstacles == 0 && kind != VB_STATISTICS));
    }
}

static void refusals_have_an_order(void)
{
    const uint32_t all = (1 << OBSTACLES) - 1, no_feature = all & ~(1 << FEATURE);
    first_obstacle_answers(VB_INFLATE, no_feature);
    first_obstacle_answers(VB_DEFLATE, no_feature);
    first_obstacle_answers(VB_STATISTICS, all);
    first_obstacle_answers(VB_REPORT, all);
    first_obstacle_answers(VB_HINT, all);
    EXPECT(balloon_notify(&guest.balloon, UINT32_MAX).code == VB_NO_QUEUE);
    guest.balloon.state.device.status = 15 | 128;
    EXPECT(balloon_notify(&guest.balloon, VB_INFLATE).code == VB_NOT_READY);
}

/* ---- rules */

/* The chain that is next is broken by this rule: nothing moves but the status, the device needs a
 * reset, and the driver is told. */
static void breaks(uint32_t kind, uint32_t rule)
{
    VbDevice *device = &guest.balloon.state.device, before = *device;
    struct balloon_result result = balloon_notify(&guest.balloon, kind);
    EXPECT(result.code == VB_BROKEN && result.rule == rule && result.configuration &&
           !result.interrupts && !result.pages);
    EXPECT(device->status == (15 | 64) && stands(device, &before) && used_index(&guest, kind) == 0);
    EXPECT(balloon_notify(&guest.balloon, VB_INFLATE).code == VB_NEEDS_RESET);
    device->status = 15;
}

/* The rules of the walk, of each queue; of two the one that is met first. */
static void walks_break_rules(uint32_t kind)
{
    const uint16_t write = kind == VB_REPORT ? WRITE : 0;
    begin(FEATURES, SIZE);
    offer(kind, 0, SIZE + 1);
    breaks(kind, 7);
    offer(kind, 0, 0xffff);
    breaks(kind, 7);
    offer(kind, SIZE, 1);
    breaks(kind, 1);
    offer(kind, 0xffff, 1);
    breaks(kind, 1);
    offer(kind, 3, 1);
    describe(&guest, kind, 3, 0x20000, 4096, NEXT | write, SIZE);
    breaks(kind, 2);
    describe(&guest, kind, 3, 0x20000, 4096, NEXT | write, 3);
    breaks(kind, 3);
    describe(&guest, kind, 3, 0x20000, 4096, NEXT | write, 5);
    describe(&guest, kind, 5, UINT64_MAX, 4096, INDIRECT | NEXT | write, 99);
    breaks(kind, 4);
    describe(&guest, kind, 3, 0x20000, 4096, WRITE | NEXT, 5);
    describe(&guest, kind, 5, 0x20000, 4096, 0, 0);
    breaks(kind, 5);
    describe(&guest, kind, 5, 0x20000, 4096, NEXT, 99);
    breaks(kind, 5);
    describe(&guest, kind, 3, 0x20000, 4096, kind == VB_HINT ? NEXT : write ^ WRITE,
             5); /* hints are of either */
    describe(&guest, kind, 5, 0x20000, 4096, write ^ WRITE, 0);
    breaks(kind, 5);
    for (uint16_t i = 0; i < SIZE; i++) /* too long before the first one comes again, to be read */
        describe(&guest, kind, i, 0x20000, 4096, i + 1 < SIZE ? NEXT : NEXT | WRITE,
                 (i + 1) % SIZE);
    offer(kind, 0, 1);
    breaks(kind, 3);
    offer(kind, 3, 1);
    const uint64_t outside[][2] = {{MEMORY - 4095, 4096},     {MEMORY + 1, 0},
                                   {UINT64_MAX - 4095, 4096}, {UINT64_MAX, 1},
                                   {1ull << 63, 4096},        {0, 0xffffffff}};
    for (size_t i = 0; i < sizeof outside / sizeof outside[0]; i++) {
        describe(&guest, kind, 3, outside[i][0], (uint32_t)outside[i][1], NEXT | write, 99);
        breaks(kind, 6);
    }
}

static void lengths_break_rules(void)
{
    const uint32_t requests[] = {0, 1, 2, 3, 5, 1023, 1025, 1026, 4095, 4 * VB_LONGEST_REQUEST + 4};
    const uint32_t figures_of[] = {1, 9, 11, 1019, 1021, 1030};
    const uint32_t blocks[] = {0, 1, 4095, 4097, 2 * 4096 - 1};
    begin(FEATURES, SIZE);
    for (uint32_t kind = VB_INFLATE; kind < VB_NO_KIND; kind++)
        offer(kind, 0, 1);
    for (uint32_t kind = VB_INFLATE; kind <= VB_DEFLATE; kind++)
        for (size_t i = 0; i < sizeof requests / 4; i++) {
            describe(&guest, kind, 0, 0x20000, requests[i], 0, 0);
            breaks(kind, 8);
        }
    for (size_t i = 0; i < sizeof figures_of / 4; i++) {
        describe(&guest, VB_STATISTICS, 0, 0x20000, figures_of[i], 0, 0);
        breaks(VB_STATISTICS, 8);
    }
    describe(&guest, VB_INFLATE, 0, 0x20000, 4 * VB_LONGEST_REQUEST, NEXT, 1);
    describe(&guest, VB_INFLATE, 1, 0x30000, 4, 0, 0);
    breaks(VB_INFLATE, 8);
    describe(&guest, VB_REPORT, 0, 0x20000, 4096, WRITE | NEXT, 1);
    for (size_t i = 0; i < sizeof blocks / 4; i++) {
        describe(&guest, VB_REPORT, 1, 0x30000, blocks[i], WRITE, 0);
        breaks(VB_REPORT, 8);
    }
    describe(&guest, VB_REPORT, 1, 0x30800, 4096, WRITE, 0);
    breaks(VB_REPORT, 9);
    describe(&guest, VB_REPORT, 1, (RESERVED - 1) * 4096, 4096, WRITE, 0);
    breaks(VB_REPORT, 10);
}

/* An id of hints has 4 bytes, and hinted pages break a report's rules, whether a round is open or
 * not. */
static void hints_break_rules(bool opened)
{
    static const struct {
        uint32_t length, rule, other;
        uint16_t flags;
        uint64_t address;
    } rows[] = {
        {0, 8, 0, 0, 0x20000},
        {3, 8, 0, 0, 0x20000},
        {5, 8, 0, 0, 0x20000},
        {8, 8, 0, 0, 0x20000},
        {4096, 8, 0, 0, 0x20000},
        {2, 8, 3, NEXT, 0x20000},
        {4, 8, 4, NEXT, 0x20000},
        {4, 8, MEMORY - 4, NEXT, 0x20000},
        {0, 8, 0, WRITE, 0x20000},
        {4, 8, 0, WRITE, 0x20000},
        {4097, 8, 0, WRITE, 0x20000},
        {4096, 9, 0, WRITE, 0x20800},
        {4096, 10, 0, WRITE, (RESERVED - 1) * 4096},
        {4096, 6, 0, WRITE, MEMORY},
    };
    for (size_t i = 0; i < sizeof rows / sizeof *rows; i++) {
        begin(FEATURES, SIZE);
        guest.balloon.state.device.round = (VbRound){.shown = 9, .last = 9, .opened = opened};
        offer(VB_HINT, 0, 1);
        describe(&guest, VB_HINT, 0, rows[i].address, rows[i].length, rows[i].flags, 1);
        describe(&guest, VB_HINT, 1, 0, rows[i].other, 0, 0);
        breaks(VB_HINT, rows[i].rule);
    }
}

/* At each bound there is a chain that is right. */
static void bounds_are_right(void)
{
    begin(FEATURES, SIZE);
    offer(VB_DEFLATE, 7, 1);
    for (uint32_t i = 0; i < 32; i++)
        put(&guest, MEMORY - 128 + 4 * i, RESERVED, 4);
    for (uint16_t i = 0; i < SIZE; i++)
        describe(&guest, VB_DEFLATE, 7 - i, MEMORY - 128, 128, i < SIZE - 1 ? NEXT | 0x8 : 0xfff8,
                 (uint16_t)(6 - i));
    struct balloon_result result = balloon_notify(&guest.balloon, VB_DEFLATE);
    EXPECT(result.code == VB_OK && result.chains == 1 && result.pages == 256 &&
           last_used(&guest, VB_DEFLATE) == 7);
    describe(&guest, VB_STATISTICS, 0, MEMORY, 0, NEXT, 1);
    describe(&guest, VB_STATISTICS, 1, 0, 1020, 0, 0);
    offer(VB_STATISTICS, 0, SIZE);
    EXPECT(balloon_notify(&guest.balloon, VB_STATISTICS).code == VB_OK && seen.figures == 102);
    ring_of_kind(&guest.balloon, VB_INFLATE)->next_avail = 0xfffe;
    offer(VB_INFLATE, 1, 0xffff);
    put(&guest, 0x20000, 700, 4);
    describe(&guest, VB_INFLATE, 1, 0x20000, 4, 0, 0);
    EXPECT(balloon_notify(&guest.balloon, VB_INFLATE).code == VB_OK);
    EXPECT(balloon_notify(&guest.balloon, VB_INFLATE).code == VB_NOTHING);
    describe(&guest, VB_REPORT, 0, RESERVED * 4096, MEMORY - RESERVED * 4096, WRITE, 0);
    offer(VB_REPORT, 0, 1);
    result = balloon_notify(&guest.balloon, VB_REPORT);
    EXPECT(result.code == VB_OK && result.pages == MEMORY / 4096 - RESERVED && result.skipped == 0);
    EXPECT(seen.runs == 1 && seen.run[0].first == RESERVED &&
           seen.run[0].count == MEMORY / 4096 - RESERVED);
    EXPECT(balloon_notify(&guest.balloon, VB_REPORT).code == VB_NOTHING);
}

/* What a round is refused for, by what is in its way: with all of that and what comes after it. */
static void rounds_are_refused_in_order(void)
{
    static const uint32_t codes[] = {VB_BAD_ARGUMENT, VB_NOT_READY, VB_NEEDS_RESET, VB_NO_QUEUE,
                                     VB_MISPLACED};
    for (uint32_t obstacles = 1; obstacles < 32; obstacles++) {
        uint32_t id = 7, first = (uint32_t)__builtin_ctz(obstacles);
        VbDevice *device = &guest.balloon.state.device;
        begin(FEATURES, SIZE);
        EXPECT(balloon_begin_hints(&guest.balloon, &id) == VB_OK && id == 2);
        device->settings.offered &= ~(obstacles & 1 ? 1ull << 32 : 0);
        device->status = (uint8_t)((obstacles & 2 ? 11 : 15) | (obstacles & 4 ? 64 : 0));
        device->features &= ~(uint64_t)(obstacles & 8 ? VB_F_FREE_PAGE_HINT : 0);
        device->hint.size = obstacles & 16 ? 0 : device->hint.size;
        VbDevice before = *device;
        EXPECT(balloon_begin_hints(&guest.balloon, &id) == codes[first] && id == 0 &&
               memcmp(device, &before, sizeof before) == 0);
    }
}

/* After the last id of 32 bits comes 2 again: 0 and 1 are none. */
static void ids_go_round(void)
{
    static const struct {
        uint32_t last, next;
    } rows[] = {{0, 2}, {1, 2}, {2, 3}, {UINT32_MAX - 1, UINT32_MAX}, {UINT32_MAX, 2}};
    for (size_t i = 0; i < sizeof rows / sizeof *rows; i++) {
        uint32_t id;
        begin(FEATURES, SIZE);
        guest.balloon.state.device.round.last = rows[i].last;
        EXPECT(balloon_begin_hints(&guest.balloon, &id) == VB_OK && id == rows[i].next);
    }
}

/* A report, or hints, of 33 blocks breaks rule 8; of 32 it is right. */
static void reports_have_few_pieces(uint32_t kind)
{
    for (uint16_t count = 32; count <= 33; count++) {
        begin(VERSION_1 | (kind == VB_HINT ? VB_F_FREE_PAGE_HINT : REPORTING), 64);
        guest.balloon.state.device.round =
            (VbRound){.shown = 9, .last = 9, .opened = kind == VB_HINT};
        for (uint16_t i = 0; i < count; i++)
            describe(&guest, kind, i, 0x10000 + 8192ull * i, 4096,
                     i + 1 < count ? WRITE | NEXT : WRITE, i + 1);
        offer(kind, 0, 1);
        struct balloon_result result = balloon_notify(&guest.balloon, kind);
        EXPECT(count == 32 ? result.code == VB_OK && result.pages == 32
                           : result.code == VB_BROKEN && result.rule == 8);
    }
}

/* What a chain given back leaves in memory (VIRTIO 1.1, 2.6.8), round the ring and past 65,535
 * chains. */
static void used_elements_have_places(void)
{
    begin(FEATURES, SIZE);
    for (uint16_t i = 0; i < SIZE; i++)
        describe(&guest, VB_REPORT, i, 0x20000, 4096, WRITE, 0);
    for (uint32_t i = 0; i < 70000; i++) {
        publish(&guest, VB_REPORT, i % SIZE);
        EXPECT(balloon_notify(&guest.balloon, VB_REPORT).code == VB_OK);
        EXPECT(used_index(&guest, VB_REPORT) == (uint16_t)(i + 1) &&
               last_used(&guest, VB_REPORT) == i % SIZE);
    }
}

static void pages_break_rules(void)
{
    const uint32_t last = MEMORY / 4096 - 1;
    const struct {
        uint32_t page, rule;
    } rows[] = {{last + 1, 9}, {UINT32_MAX, 9}, {RESERVED - 1, 10}, {0, 10}};
    for (size_t i = 0; i < 4; i++) {
        begin(FEATURES, SIZE);
        const uint32_t pages[] = {last, rows[i].page, rows[3 - i].page};
        name_pages(&guest, VB_INFLATE, pages, 3);
        breaks(VB_INFLATE, rows[i].rule);
        begin(FEATURES, SIZE);
        name_pages(&guest, VB_INFLATE, pages, 1);
        EXPECT(balloon_notify(&guest.balloon, VB_INFLATE).pages == 1);
        EXPECT(seen.runs == 1 && seen.run[0].first == last && seen.run[0].count == 1);
        EXPECT(used_index(&guest, VB_INFLATE) == 1 && used_index(&guest, VB_DEFLATE) == 0);
    }
}

#define RUN(test) (test, puts("ok  " #test))

int main(void)
{
    make_memory(&guest, BALLOON_PRIVATE);
    RUN(refusals_have_an_order());
    RUN(walks_break_rules(VB_INFLATE));
    RUN(walks_break_rules(VB_DEFLATE));
    RUN(walks_break_rules(VB_STATISTICS));
    RUN(walks_break_rules(VB_REPORT));
    RUN(walks_break_rules(VB_HINT));
    RUN(lengths_break_rules());
    RUN(bounds_are_right());
    RUN(rounds_are_refused_in_order());
    RUN(ids_go_round());
    RUN(hints_break_rules(false));
    RUN(hints_break_rules(true));
    RUN(reports_have_few_pieces(VB_REPORT));
    RUN(reports_have_few_pieces(VB_HINT));
    RUN(used_elements_have_places());
    RUN(pages_break_rules());
    free_memory(&guest);
    return 0;
}
