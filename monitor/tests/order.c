/* The order in which a balloon touches guest memory, tells its monitor, discards, and fences: all
 * of memory is out of reach during a notice, so that each access faults, is noted, is let through
 * by one step of the processor, and is out of reach again. On x86-64. */
#if !defined RUST_SHIM && defined __x86_64__
/* Fences of balloon.h are noted. Those of the Rust crate are looked at by ../tools/check-fences
 * alone. */
static void note_fence(int order);
#define __atomic_thread_fence note_fence
#endif
#include "guest.h"
#undef __atomic_thread_fence
#if defined __x86_64__
#include "order/touches.h"

static int discard(void *context, const struct balloon_region *region, uint64_t at, uint64_t length)
{
    (void)context, (void)region;
    EXPECT(length == 4096);
    note(DISCARD, at / 4096, true);
    return 0;
}

static void be_told(void *context, uint32_t kind, const VbRun *runs, uint32_t count)
{
    (void)context;
    EXPECT(count > 0 && runs[0].first == NAMED);
    note(TOLD, kind, false);
}

static void hear(void *context, const VbStatistic *figures, uint32_t count)
{
    (void)context, (void)figures;
    note(FIGURES, count, false);
}

static void hear_id(void *context, uint32_t id)
{
    (void)context;
    note(ID, id, false);
}

static void put_bytes(uint64_t address, uint64_t value, size_t bytes)
{
    value = htole64(value);
    memcpy(memory + address, &value, bytes);
}

static const uint64_t FEATURES = 1ull << 32 | 0x2f; /* Linux's, and hints */
static bool holds;

/* A ready device of these kinds, each with its queue at the one place, in one region or two. */
static void begin(uint32_t kind, uint32_t count)
{
    static struct balloon_region regions[2];
    struct balloon_result result;
    memset(memory, 0, PAGES * 4096);
    regions[0] = (struct balloon_region){
        0, count == 1 ? PAGES * 4096 : BORDER, memory, BALLOON_PRIVATE, 0, 0};
    regions[1] = (struct balloon_region){
        BORDER, PAGES * 4096 - BORDER, memory + BORDER, BALLOON_PRIVATE, 0, 0};
    EXPECT(balloon_init(
               &balloon, regions, count,
               (VbSettings){.offered = FEATURES, .holds_deflates = holds, .discards_hints = 1}) ==
           VB_OK);
    balloon.discard = discard;
    balloon.on_pages = be_told;
    balloon.on_statistics = hear;
    balloon.on_hint_id = hear_id;
    EXPECT(balloon_write_status(&balloon, 1, &result) == 0 &&
           balloon_write_status(&balloon, 3, &result) == 0);
    EXPECT(balloon_negotiate(&balloon, FEATURES) == 0 &&
           balloon_write_status(&balloon, 11, &result) == 0);
    EXPECT(balloon_place(&balloon, kind, table, AVAIL, USED, SIZE) == VB_OK);
    EXPECT(balloon_write_status(&balloon, 15, &result) == 0);
}

static void put_descriptor(uint64_t number, uint64_t address, uint64_t length, uint64_t flags,
                           uint64_t next)
{
    put_bytes(table + 16 * number, address, 8);
    put_bytes(table + 16 * number + 8, length, 4);
    put_bytes(table + 16 * number + 12, flags, 2);
    put_bytes(table + 16 * number + 14, next, 2);
}

/* A chain of two pieces, one after the other; 20 bytes, or a page and a page. */
static void offer(uint32_t kind)
{
    const bool report = kind == VB_REPORT || kind == VB_HINT;
    for (uint32_t i = 0; i < 5; i++)
        put_bytes(BUFFER + 4 * i, NAMED + 2 * i, 4);
    put_descriptor(3, report ? NAMED * 4096 : BUFFER, report ? 4096 : 13,
                   report ? NEXT | WRITE : NEXT, 6);
    put_descriptor(6, report ? (NAMED + 5) * 4096 : BUFFER + 13, report ? 4096 : 7,
                   report ? WRITE : 0, 0);
    put_bytes(AVAIL + 4, 3, 2);
    put_bytes(AVAIL + 2, 1, 2);
}

/* A report of the pages from NAMED on, by the descriptors of these numbers, each of which names the
 * next one. */
static void offer_chain(const uint16_t *numbers, uint32_t count)
{
    for (uint32_t i = 0; i < count; i++)
        put_descriptor(numbers[i], (NAMED + i) * 4096, 4096, WRITE | (i + 1 < count ? NEXT : 0),
                       i + 1 < count ? numbers[i + 1] : 0);
    put_bytes(AVAIL + 4, numbers[0], 2);
    put_bytes(AVAIL + 2, 1, 2);
}

/* What was touched is this list, in order, where the fences of balloon.h are noted. */
static void expect_touches(const struct touch *expected)
{
    uint32_t i = 0;
    for (; expected->what != OTHER; expected++) {
#ifdef RUST_SHIM
        if (expected->what == FENCE || expected->what == SET)
            continue;
#endif
        bool same = i < touch_count && touches[i].what == expected->what &&
                    touches[i].number == expected->number && touches[i].write == expected->write;
        if (!same) {
            const struct touch *it =
                i < touch_count ? &touches[i] : &(struct touch){OTHER, 0, false};
            fprintf(stderr, "%s %llu where %s %llu should be\n", WORDS[it->what],
                    (unsigned long long)it->number, WORDS[expected->what],
                    (unsigned long long)expected->number);
            exit(1);
        }
        i++;
    }
    EXPECT(i == touch_count);
}

enum { READS = false, WRITES = true };
#define ENTERED_AT(entry)                                                                          \
    {FENCE, __ATOMIC_ACQUIRE, READS},                                                              \
    {                                                                                              \
        ENTRY, entry, READS                                                                        \
    }
#define ENTERED {INDEX, 0, READS}, ENTERED_AT(0)
#define COPIED(number)                                                                             \
    {                                                                                              \
        DESCRIPTOR, number, READS                                                                  \
    }
/* The first descriptor alone, then the one that it names with all after it. */
#define NEXT_TAKEN(entry) ENTERED_AT(entry), COPIED(3), COPIED(6), COPIED(7)
#define TAKEN {INDEX, 0, READS}, NEXT_TAKEN(0)
#define GIVEN_AT(number)                                                                           \
    {ELEMENT, 2 * (number), WRITES}, {ELEMENT, 2 * (number) + 1, WRITES},                          \
        {FENCE, __ATOMIC_RELEASE, READS},                                                          \
    {                                                                                              \
        USED_INDEX, 0, WRITES                                                                      \
    }
#define GIVEN GIVEN_AT(0)
#define ASKED                                                                                      \
    {FENCE, __ATOMIC_SEQ_CST, READS}, {FLAGS, 0, READS},                                           \
    {                                                                                              \
        OTHER, 0, READS                                                                            \
    }

static struct balloon_result notify(uint32_t kind)
{
    touch_count = 0;
    reach(PROT_NONE);
    struct balloon_result result = balloon_notify(&balloon, kind);
    reach(PROT_READ | PROT_WRITE);
    EXPECT(result.code == VB_OK);
    return result;
}

static void serve(uint32_t kind, bool keeps)
{
    begin(kind, 1);
    balloon.keeps_pages = keeps;
    offer(kind);
    struct balloon_result result = notify(kind);
    EXPECT(result.chains == 1 && result.interrupts == (kind == VB_STATISTICS ? 0 : 1u << kind));
}

/* Named, told, discarded, and only then given back. */
static void an_inflate_is_in_order(void)
{
    serve(VB_INFLATE, false);
    expect_touches((const struct touch[]){TAKEN,
                                          {BYTES, 0, READS},
                                          {TOLD, VB_INFLATE, READS},
                                          {DISCARD, NAMED, WRITES},
                                          {DISCARD, NAMED + 2, WRITES},
                                          {DISCARD, NAMED + 4, WRITES},
                                          {DISCARD, NAMED + 6, WRITES},
                                          {DISCARD, NAMED + 8, WRITES},
                                          GIVEN,
                                          ASKED});
}

static void a_deflate_is_in_order(void)
{
    serve(VB_DEFLATE, false);
    expect_touches(
        (const struct touch[]){TAKEN, {BYTES, 0, READS}, {TOLD, VB_DEFLATE, READS}, GIVEN, ASKED});
}

static void a_report_is_in_order(void)
{
    serve(VB_REPORT, false);
    expect_touches((const struct touch[]){TAKEN,
                                          {TOLD, VB_REPORT, READS},
                                          {DISCARD, NAMED, WRITES},
                                          {DISCARD, NAMED + 5, WRITES},
                                          GIVEN,
                                          ASKED});
}

/* Told and given back, with no discard. */
static void pages_may_be_kept(void)
{
    serve(VB_INFLATE, true);
    expect_touches(
        (const struct touch[]){TAKEN, {BYTES, 0, READS}, {TOLD, VB_INFLATE, READS}, GIVEN, ASKED});
    serve(VB_DEFLATE, true);
    expect_touches(
        (const struct touch[]){TAKEN, {BYTES, 0, READS}, {TOLD, VB_DEFLATE, READS}, GIVEN, ASKED});
    serve(VB_REPORT, true);
    expect_touches((const struct touch[]){TAKEN, {TOLD, VB_REPORT, READS}, GIVEN, ASKED});
}

/* An id of hints is told, and then pages are, as a report's; those that come late are given back,
 * and nothing is told. */
static void hints_are_in_order(void)
{
    uint32_t id;
    begin(VB_HINT, 1);
    offer(VB_HINT);
    put_descriptor(7, BUFFER, 4, 0, 0);
    put_bytes(AVAIL + 6, 7, 2);
    put_bytes(AVAIL + 8, 3, 2);
    put_bytes(AVAIL + 2, 3, 2);
    EXPECT(balloon_begin_hints(&balloon, &id) == VB_OK);
    put_bytes(BUFFER, id, 4);
    struct balloon_result result = notify(VB_HINT);
    EXPECT(result.chains == 3 && result.late == 2 && result.discarded == 2);
    expect_touches((const struct touch[]){TAKEN,
                                          GIVEN,
                                          ENTERED_AT(1),
                                          COPIED(7),
                                          {BYTES, 0, READS},
                                          {ID, id, READS},
                                          GIVEN_AT(1),
                                          NEXT_TAKEN(2),
                                          {TOLD, VB_HINT, READS},
                                          {DISCARD, NAMED, WRITES},
                                          {DISCARD, NAMED + 5, WRITES},
                                          GIVEN_AT(2),
                                          ASKED});
}

static void statistics_are_in_order(void)
{
    serve(VB_STATISTICS, false);
    expect_touches(
        (const struct touch[]){TAKEN, {BYTES, 0, READS}, {FIGURES, 2, READS}, {OTHER, 0, READS}});
    touch_count = 0;
    reach(PROT_NONE);
    struct balloon_result result = balloon_ask_statistics(&balloon);
    reach(PROT_READ | PROT_WRITE);
    EXPECT(result.code == VB_OK && result.interrupts == 1 << VB_STATISTICS &&
           memory[USED + 4] == 3 && memory[USED + 2] == 1);
    expect_touches((const struct touch[]){GIVEN, ASKED});
}

/* A deflate that is held is told, and nothing is written. Once it is granted its pages leave the
 * set, which lies out of reach too where the shim works on it there, and then it is given back. */
static void a_held_deflate_is_in_order(void)
{
    static uint64_t elsewhere, waiting;
    holds = true;
    begin(VB_DEFLATE, 1);
    offer(VB_DEFLATE);
    for (uint32_t i = 0; i < 5; i++)
        put_bytes(BUFFER + 4 * i, NAMED + i, 4);
    put_bytes(SET_AT, elsewhere = UINT64_MAX, 8);
#ifdef RUST_SHIM
    balloon.ballooned = &elsewhere;
#else
    balloon.ballooned = (uint64_t *)(void *)(memory + SET_AT);
#endif
    balloon.deflating = &waiting;
    balloon.ballooned_words = 1;
    struct balloon_result result = notify(VB_DEFLATE);
    EXPECT(waiting == UINT64_C(31) << NAMED && result.held && result.held_pages == 5 &&
           result.chains == 0 && result.marked == 0);
    expect_touches((const struct touch[]){
        TAKEN, {BYTES, 0, READS}, {TOLD, VB_DEFLATE, READS}, {OTHER, 0, READS}});
    touch_count = 0;
    reach(PROT_NONE);
    result = balloon_give_deflate(&balloon);
    reach(PROT_READ | PROT_WRITE);
    EXPECT(result.chains == 1 && result.interrupts == 1 << VB_DEFLATE && result.marked == 5);
    EXPECT(*balloon.ballooned == (UINT64_MAX & ~(UINT64_C(31) << NAMED)) && memory[USED + 4] == 3 &&
           memory[USED + 2] == 1);
    expect_touches((const struct touch[]){{SET, 0, READS}, GIVEN, ASKED});
    EXPECT(waiting == 0);
    holds = false;
}

/* The driver publishes a third chain while the second one is served. */
static void publish_third(void *context, uint32_t kind, const VbRun *runs, uint32_t count)
{
    static int chains;
    be_told(context, kind, runs, count);
    if (++chains == 2)
        memory[AVAIL + 2] = 3;
}

/* The index is read once: two chains that are there are served, and the third by the next kick. */
static void the_index_is_read_once(void)
{
    begin(VB_DEFLATE, 1);
    offer(VB_DEFLATE);
    for (uint64_t i = 1; i < 3; i++)
        put_bytes(AVAIL + 4 + 2 * i, 3, 2);
    put_bytes(AVAIL + 2, 2, 2);
    balloon.on_pages = publish_third;
    struct balloon_result result = notify(VB_DEFLATE);
    EXPECT(result.chains == 2 && !result.more && memory[USED + 2] == 2);
    expect_touches((const struct touch[]){TAKEN,
                                          {BYTES, 0, READS},
                                          {TOLD, VB_DEFLATE, READS},
                                          GIVEN,
                                          NEXT_TAKEN(1),
                                          {BYTES, 0, READS},
                                          {TOLD, VB_DEFLATE, READS},
                                          {INDEX, 0, WRITES},
                                          GIVEN_AT(1),
                                          ASKED});
    result = notify(VB_DEFLATE);
    EXPECT(result.chains == 1 && !result.more && memory[USED + 2] == 3);
    expect_touches((const struct touch[]){{INDEX, 0, READS},
                                          NEXT_TAKEN(2),
                                          {BYTES, 0, READS},
                                          {TOLD, VB_DEFLATE, READS},
                                          GIVEN_AT(2),
                                          ASKED});
}

/* Descriptors in a row: the first alone, then the others at once, with what comes after them in the
 * table. */
static void a_chain_in_a_row_is_copied_at_once(void)
{
    begin(VB_REPORT, 1);
    offer_chain((const uint16_t[]){3, 4, 5}, 3);
    notify(VB_REPORT);
    expect_touches((const struct touch[]){ENTERED,
                                          COPIED(3),
                                          COPIED(4),
                                          COPIED(5),
                                          COPIED(6),
                                          COPIED(7),
                                          {TOLD, VB_REPORT, READS},
                                          {DISCARD, NAMED, WRITES},
                                          {DISCARD, NAMED + 1, WRITES},
                                          {DISCARD, NAMED + 2, WRITES},
                                          GIVEN,
                                          ASKED});
}

/* 6 is in the row from 2 on, and 1 isn't: it is copied, with all after it once more. */
static void a_jump_out_of_a_row_is_copied_again(void)
{
    begin(VB_REPORT, 1);
    offer_chain((const uint16_t[]){5, 2, 6, 3, 1}, 5);
    notify(VB_REPORT);
    expect_touches((const struct touch[]){ENTERED,
                                          COPIED(5),
                                          COPIED(2),
                                          COPIED(3),
                                          COPIED(4),
                                          COPIED(5),
                                          COPIED(6),
                                          COPIED(7),
                                          COPIED(1),
                                          COPIED(2),
                                          COPIED(3),
                                          COPIED(4),
                                          COPIED(5),
                                          COPIED(6),
                                          COPIED(7),
                                          {TOLD, VB_REPORT, READS},
                                          {DISCARD, NAMED, WRITES},
                                          {DISCARD, NAMED + 1, WRITES},
                                          {DISCARD, NAMED + 2, WRITES},
                                          {DISCARD, NAMED + 3, WRITES},
                                          {DISCARD, NAMED + 4, WRITES},
                                          GIVEN,
                                          ASKED});
}

/* Descriptors 0 to 3 lie in one region, the others in the next one. Discards are told by their
 * place in the second region. */
static void a_row_over_two_regions_is_copied_one_by_one(void)
{
    const uint64_t kept = table, first = NAMED - BORDER / 4096;
    table = BORDER - 4 * 16;
    begin(VB_REPORT, 2);
    offer_chain((const uint16_t[]){0, 1, 2, 5, 6}, 5);
    notify(VB_REPORT);
    expect_touches((const struct touch[]){ENTERED,
                                          COPIED(0),
                                          COPIED(1),
                                          COPIED(2),
                                          COPIED(5),
                                          COPIED(6),
                                          COPIED(7),
                                          {TOLD, VB_REPORT, READS},
                                          {DISCARD, first, WRITES},
                                          {DISCARD, first + 1, WRITES},
                                          {DISCARD, first + 2, WRITES},
                                          {DISCARD, first + 3, WRITES},
                                          {DISCARD, first + 4, WRITES},
                                          GIVEN,
                                          ASKED});
    table = kept;
}

int main(void)
{
    struct sigaction fault = {.sa_sigaction = on_fault, .sa_flags = SA_SIGINFO};
    struct sigaction step = {.sa_sigaction = on_step, .sa_flags = SA_SIGINFO};
    memory = mmap(NULL, PAGES * 4096, PROT_READ | PROT_WRITE, MAP_PRIVATE | MAP_ANONYMOUS, -1, 0);
    EXPECT(memory != MAP_FAILED && sigaction(SIGSEGV, &fault, NULL) == 0 &&
           sigaction(SIGTRAP, &step, NULL) == 0);
    an_inflate_is_in_order();
    a_deflate_is_in_order();
    a_report_is_in_order();
    pages_may_be_kept();
    hints_are_in_order();
    statistics_are_in_order();
    a_held_deflate_is_in_order();
    the_index_is_read_once();
    a_chain_in_a_row_is_copied_at_once();
    a_jump_out_of_a_row_is_copied_again();
    a_row_over_two_regions_is_copied_one_by_one();
    puts("ok  each access, fence, word to the monitor and discard comes in its order, once");
    return 0;
}
#else
int main(void)
{
    puts("ok  (the order of accesses is tested on x86-64 alone)");
    return 0;
}
#endif
