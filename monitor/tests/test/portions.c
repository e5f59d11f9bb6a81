/* Requests of more numbers than a portion has: each portion is told, marked and discarded, and the
 * chain is given back once. */
#include "test.h"

enum {
    PORTION = VB_MAX_BYTES / 4,
    MANY = 1024,
    FIRST = 800,
    SET_WORDS = 24 * MIB / 4096 / 64,
    BUFFER = MIB
};
static const VbSettings HOLDS = {
    .offered = 1ull << 32 | 0x27, .needs_must_tell = 1, .holds_deflates = 1};

/* What a monitor was told: how many pages at each call, and how many of all these were discarded
 * before it. */
struct heard {
    uint32_t calls, pages[8], first[8], discarded[8], gone;
};

static void hear(void *context, uint32_t kind, const VbRun *runs, uint32_t count)
{
    struct heard *heard = context;
    EXPECT(kind <= VB_DEFLATE && heard->calls < 8);
    for (uint32_t i = 0; i < count; i++)
        heard->pages[heard->calls] += runs[i].count;
    heard->first[heard->calls] = count ? runs[0].first : 0;
    heard->discarded[heard->calls++] = heard->gone;
}

static int count_gone(void *context, const struct balloon_region *region, uint64_t from,
                      uint64_t length)
{
    struct heard *heard = context;
    heard->gone += (uint32_t)(length / 4096);
    return balloon_drop(region, &(VbCut){0, from, region->offset + from, length});
}

/* A guest with sets, whose monitor hears; nothing is in its balloon. */
static void begin(struct guest *guest, VbSettings settings, struct heard *heard, uint64_t *sets)
{
    start(guest, 0, settings, LINUX_FEATURES, 8);
    memset(heard, 0, sizeof *heard);
    memset(sets, 0, 2 * SET_WORDS * sizeof *sets);
    guest->balloon.context = heard;
    guest->balloon.on_pages = hear;
    guest->balloon.discard = count_gone;
    guest->balloon.ballooned = sets;
    guest->balloon.deflating = sets + SET_WORDS;
    guest->balloon.ballooned_words = SET_WORDS;
}

static uint64_t in_set(const uint64_t *set)
{
    return vb_count_ballooned(set, SET_WORDS);
}

/* Writes `count` numbers from BUFFER on: every second page from FIRST on. */
static void write_numbers(const struct guest *guest, uint32_t count)
{
    for (uint32_t i = 0; i < count; i++)
        put(guest, BUFFER + 4 * i, FIRST + 2 * (i % MANY), 4);
}

/* Publishes a request whose bytes are in pieces of these lengths, in a row from BUFFER on. */
static void publish_pieces(struct guest *guest, uint32_t kind, const uint32_t *lengths,
                           uint16_t count)
{
    uint64_t from = BUFFER;
    for (uint16_t i = 0; i < count; from += lengths[i++])
        describe(guest, kind, i, from, lengths[i], i + 1 < count ? NEXT : 0, i + 1);
    publish(guest, kind, 0);
}

static void publish_numbers(struct guest *guest, uint32_t kind, uint32_t count)
{
    write_numbers(guest, count);
    publish_pieces(guest, kind, (const uint32_t[]){4 * count}, 1);
}

/* A page full of numbers, as Windows' driver sends them: four portions, told and discarded one
 * after the other. */
static void a_page_of_numbers(void)
{
    static struct guest guest;
    static uint64_t sets[2 * SET_WORDS];
    struct heard heard;
    begin(&guest, REFUSES, &heard, sets);
    memset(at(&guest, FIRST * 4096ull), 9, 4096);
    publish_numbers(&guest, VB_INFLATE, MANY);
    struct balloon_result result = balloon_notify(&guest.balloon, VB_INFLATE);
    EXPECT(result.code == VB_OK && result.chains == 1 && result.pages == MANY &&
           result.marked == MANY && in_set(sets) == MANY);
    EXPECT(result.discarded + result.in_holes == MANY && result.interrupts == 1 << VB_INFLATE &&
           !result.more);
    EXPECT(used_index(&guest, VB_INFLATE) == 1 && last_used(&guest, VB_INFLATE) == 0 &&
           *at(&guest, FIRST * 4096ull) == 0);
    EXPECT(heard.calls == 4);
    for (uint32_t i = 0; i < 4; i++)
        EXPECT(heard.pages[i] == PORTION && heard.first[i] == FIRST + 2 * PORTION * i);
    EXPECT(heard.discarded[0] == 0 && heard.discarded[1] == PORTION &&
           heard.discarded[2] == 2 * PORTION);
    publish_numbers(&guest, VB_DEFLATE, MANY);
    result = balloon_notify(&guest.balloon, VB_DEFLATE);
    EXPECT(result.code == VB_OK && result.chains == 1 && result.pages == MANY &&
           result.marked == MANY && in_set(sets) == 0);
    EXPECT(heard.calls == 8 && used_index(&guest, VB_DEFLATE) == 1 && result.discarded == 0);
    free_memory(&guest);
}

/* The bytes of a request of 257 numbers, in pieces that end anywhere: in a number, at a portion's
 * end, in an empty piece. */
static void one_number_more(void)
{
    static const struct {
        uint16_t count;
        uint32_t lengths[6];
    } cuts[] = {
        {1, {1028}},
        {2, {1024, 4}},
        {2, {1023, 5}},
        {2, {1025, 3}},
        {3, {1024, 0, 4}},
        {3, {2, 1024, 2}},
        {6, {1, 1, 0, 1021, 1, 4}},
    };
    static struct guest guest;
    static uint64_t sets[2 * SET_WORDS];
    struct heard heard;
    for (size_t row = 0; row < sizeof cuts / sizeof *cuts; row++) {
        begin(&guest, REFUSES, &heard, sets);
        write_numbers(&guest, PORTION + 1);
        publish_pieces(&guest, VB_INFLATE, cuts[row].lengths, cuts[row].count);
        struct balloon_result result = balloon_notify(&guest.balloon, VB_INFLATE);
        EXPECT(result.code == VB_OK && result.chains == 1 && result.pages == PORTION + 1 &&
               in_set(sets) == PORTION + 1);
        EXPECT(heard.calls == 2 && heard.pages[0] == PORTION && heard.pages[1] == 1 &&
               heard.first[1] == FIRST + 2 * PORTION);
        EXPECT(used_index(&guest, VB_INFLATE) == 1);
        free_memory(&guest);
    }
}

/* Numbers over the ends of pages: 1,024 of them from the middle of a page on, and in two regions
 * with a hole between them. */
static void over_pages(void)
{
    static struct guest guest;
    static uint64_t sets[2 * SET_WORDS];
    uint32_t pages[MANY];
    struct heard heard;
    begin(&guest, REFUSES, &heard, sets);
    for (uint32_t i = 0; i < MANY; i++)
        pages[i] = FIRST + i;
    name_pages(&guest, VB_INFLATE, pages, MANY);
    EXPECT(balloon_notify(&guest.balloon, VB_INFLATE).marked == MANY && heard.calls == 4 &&
           heard.first[3] == FIRST + 3 * PORTION);
    EXPECT(vb_is_ballooned(sets, SET_WORDS, FIRST + MANY - 1) &&
           !vb_is_ballooned(sets, SET_WORDS, FIRST + MANY));
    for (uint32_t i = 0; i < 300; i++)
        put(&guest, i < 100 ? 8 * MIB - 400 + 4 * i : HIGH_ADDRESS + 4 * (i - 100), FIRST + i, 4);
    describe(&guest, VB_DEFLATE, 0, 8 * MIB - 400, 400, NEXT, 1);
    describe(&guest, VB_DEFLATE, 1, HIGH_ADDRESS, 800, 0, 0);
    publish(&guest, VB_DEFLATE, 0);
    EXPECT(balloon_notify(&guest.balloon, VB_DEFLATE).marked == 300 && in_set(sets) == MANY - 300);
    EXPECT(heard.calls == 6 && heard.pages[4] == PORTION && heard.pages[5] == 300 - PORTION);
    free_memory(&guest);
}

/* A wrong number in the second portion: the first one stays told and discarded, and the chain isn't
 * given back. */
static void a_wrong_number_in_the_second(void)
{
    static struct guest guest;
    static uint64_t sets[2 * SET_WORDS];
    struct heard heard;
    begin(&guest, REFUSES, &heard, sets);
    write_numbers(&guest, 2 * PORTION);
    put(&guest, BUFFER + 4 * (PORTION + 5), 24 * MIB / 4096, 4);
    publish_pieces(&guest, VB_INFLATE, (const uint32_t[]){8 * PORTION}, 1);
    struct balloon_result result = balloon_notify(&guest.balloon, VB_INFLATE);
    EXPECT(result.code == VB_BROKEN && result.rule == 9 && result.configuration &&
           result.chains == 0 && result.interrupts == 0);
    EXPECT(result.pages == PORTION && result.marked == PORTION && in_set(sets) == PORTION &&
           heard.calls == 1 && heard.gone == PORTION);
    EXPECT(used_index(&guest, VB_INFLATE) == 0 &&
           guest.balloon.state.device.inflate.next_avail == 0);
    EXPECT(balloon_notify(&guest.balloon, VB_INFLATE).code == VB_NEEDS_RESET);
    free_memory(&guest);
    begin(&guest, SKIPS, &heard, sets);
    write_numbers(&guest, 2 * PORTION);
    put(&guest, BUFFER + 4 * (PORTION + 5), 24 * MIB / 4096, 4);
    publish_pieces(&guest, VB_INFLATE, (const uint32_t[]){8 * PORTION}, 1);
    result = balloon_notify(&guest.balloon, VB_INFLATE);
    EXPECT(result.code == VB_OK && result.pages == 2 * PORTION - 1 && result.skipped == 1 &&
           used_index(&guest, VB_INFLATE) == 1);
    EXPECT(heard.calls == 2 && heard.pages[1] == PORTION - 1);
    free_memory(&guest);
}

/* A second portion that lies in a hole of memory. */
static void a_hole_in_the_second(void)
{
    static struct guest guest;
    static uint64_t sets[2 * SET_WORDS];
    struct heard heard;
    begin(&guest, REFUSES, &heard, sets);
    write_numbers(&guest, PORTION);
    describe(&guest, VB_INFLATE, 0, BUFFER, 4 * PORTION, NEXT, 1);
    describe(&guest, VB_INFLATE, 1, 9 * MIB, 4, 0, 0);
    publish(&guest, VB_INFLATE, 0);
    struct balloon_result result = balloon_notify(&guest.balloon, VB_INFLATE);
    EXPECT(result.code == VB_BROKEN && result.rule == 6 && result.pages == PORTION &&
           result.discarded == PORTION);
    EXPECT(heard.calls == 1 && used_index(&guest, VB_INFLATE) == 0);
    free_memory(&guest);
}

/* The longest request, of 2^20 numbers here, one number more, and lengths that no request has:
 * nothing of these is told. */
static void lengths(void)
{
    static const struct {
        uint16_t count;
        uint32_t lengths[3];
        uint32_t rule;
        uint32_t pages;
    } rows[] = {
        {1, {4 * VB_LONGEST_REQUEST}, 0, VB_LONGEST_REQUEST},
        {2, {4 * VB_LONGEST_REQUEST, 4}, 8, 0},
        {3, {1, 4 * VB_LONGEST_REQUEST, 3}, 8, 0},
        {1, {0}, 8, 0},
        {1, {5}, 8, 0},
        {1, {1026}, 8, 0},
        {2, {1024, 1}, 8, 0},
    };
    static struct guest guest;
    const uint32_t number = htole32(FIRST);
    for (size_t row = 0; row < sizeof rows / sizeof *rows; row++) {
        start(&guest, 0, REFUSES, LINUX_FEATURES, 8);
        for (uint32_t i = 0; i < VB_LONGEST_REQUEST + 2; i++)
            memcpy(at(&guest, BUFFER + 4 * (uint64_t)i), &number, sizeof number);
        guest.balloon.keeps_pages = true;
        publish_pieces(&guest, VB_INFLATE, rows[row].lengths, rows[row].count);
        struct balloon_result result = balloon_notify(&guest.balloon, VB_INFLATE);
        EXPECT(result.code == (rows[row].rule ? VB_BROKEN : VB_OK) &&
               result.rule == rows[row].rule);
        EXPECT(result.pages == rows[row].pages && result.kept == rows[row].pages &&
               used_index(&guest, VB_INFLATE) == (rows[row].rule == 0));
        free_memory(&guest);
    }
}

/* A notice begins no further chain once as many pages were named as it may name: the pages of all
 * portions count. */
static void all_portions_count(void)
{
    static struct guest guest;
    static uint64_t sets[2 * SET_WORDS];
    struct heard heard;
    begin(&guest, REFUSES, &heard, sets);
    guest.balloon.most_pages = PORTION + 1;
    write_numbers(&guest, MANY);
    describe(&guest, VB_INFLATE, 0, BUFFER, 4 * PORTION + 4, 0, 0);
    describe(&guest, VB_INFLATE, 1, BUFFER + 4 * PORTION + 4, 4, 0, 0);
    publish(&guest, VB_INFLATE, 0);
    publish(&guest, VB_INFLATE, 1);
    struct balloon_result result = balloon_notify(&guest.balloon, VB_INFLATE);
    EXPECT(result.code == VB_OK && result.chains == 1 && result.pages == PORTION + 1 &&
           result.more);
    result = balloon_notify(&guest.balloon, VB_INFLATE);
    EXPECT(result.code == VB_OK && result.chains == 1 && result.pages == 1 && !result.more &&
           used_index(&guest, VB_INFLATE) == 2);
    free_memory(&guest);
}

/* A deflate of 1,000 pages is held as a whole, and all of them leave the set as it is granted. */
static void a_long_deflate_is_held(void)
{
    static struct guest guest;
    static uint64_t sets[2 * SET_WORDS];
    struct heard heard;
    uint8_t bytes[VB_STATE_BYTES];
    uint32_t pages = 0;
    begin(&guest, HOLDS, &heard, sets);
    publish_numbers(&guest, VB_INFLATE, MANY);
    EXPECT(balloon_notify(&guest.balloon, VB_INFLATE).marked == MANY);
    publish_numbers(&guest, VB_DEFLATE, 1000);
    struct balloon_result result = balloon_notify(&guest.balloon, VB_DEFLATE);
    EXPECT(result.code == VB_OK && result.held && result.held_pages == 1000 &&
           result.pages == 1000 && result.chains == 0);
    EXPECT(result.marked == 0 && result.unmarked == 0 && heard.calls == 8 &&
           heard.pages[7] == 1000 - 3 * PORTION);
    EXPECT(in_set(sets) == MANY && in_set(sets + SET_WORDS) == 1000 &&
           used_index(&guest, VB_DEFLATE) == 0);
    EXPECT(balloon_held_deflate(&guest.balloon, &pages) && pages == 1000);
    EXPECT(balloon_save(&guest.balloon, bytes, sizeof bytes) == VB_OK &&
           balloon_restore(&guest.balloon, bytes, sizeof bytes) == VB_OK);
    EXPECT(balloon_held_deflate(&guest.balloon, &pages) && pages == 1000);
    result = balloon_give_deflate(&guest.balloon);
    EXPECT(result.code == VB_OK && result.chains == 1 && result.marked == 1000 &&
           result.interrupts == 1 << VB_DEFLATE);
    EXPECT(in_set(sets) == MANY - 1000 && in_set(sets + SET_WORDS) == 0 &&
           used_index(&guest, VB_DEFLATE) == 1);
    EXPECT(vb_is_ballooned(sets, SET_WORDS, FIRST + 2 * 1000) &&
           !vb_is_ballooned(sets, SET_WORDS, FIRST));
    free_memory(&guest);
}

/* What of a deflate was told before a fault, or a reset, leaves nothing for the next one. */
static void what_was_told_is_forgotten(void)
{
    static struct guest guest;
    static uint64_t sets[2 * SET_WORDS];
    struct balloon_result result;
    struct heard heard;
    begin(&guest, HOLDS, &heard, sets);
    publish_numbers(&guest, VB_INFLATE, 300);
    EXPECT(balloon_notify(&guest.balloon, VB_INFLATE).marked == 300);
    write_numbers(&guest, 300);
    put(&guest, BUFFER + 4 * (PORTION + 5), UINT32_MAX, 4);
    publish_pieces(&guest, VB_DEFLATE, (const uint32_t[]){1200}, 1);
    result = balloon_notify(&guest.balloon, VB_DEFLATE);
    EXPECT(result.code == VB_BROKEN && result.rule == 9 && !result.held &&
           result.pages == PORTION && in_set(sets) == 300);
    EXPECT(!balloon_held_deflate(&guest.balloon, &(uint32_t){0}) &&
           balloon_give_deflate(&guest.balloon).code == VB_NOTHING);
    start_features(&guest, LINUX_FEATURES, 8);
    EXPECT(in_set(sets) == 0 && in_set(sets + SET_WORDS) == 0);
    EXPECT(balloon_write_status(&guest.balloon, 15, &result) == 0);
    heard.calls = 0;
    publish_numbers(&guest, VB_INFLATE, 300);
    EXPECT(balloon_notify(&guest.balloon, VB_INFLATE).marked == 300);
    publish_numbers(&guest, VB_DEFLATE, 3);
    EXPECT(balloon_notify(&guest.balloon, VB_DEFLATE).held_pages == 3 &&
           balloon_give_deflate(&guest.balloon).marked == 3);
    EXPECT(in_set(sets) == 297);
    free_memory(&guest);
}

void test_portions(void)
{
    RUN(a_page_of_numbers());
    RUN(one_number_more());
    RUN(over_pages());
    RUN(a_wrong_number_in_the_second());
    RUN(a_hole_in_the_second());
    RUN(lengths());
    RUN(all_portions_count());
    RUN(a_long_deflate_is_held());
    RUN(what_was_told_is_forgotten());
}
