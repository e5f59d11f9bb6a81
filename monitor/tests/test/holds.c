/* A device that holds deflates: each waits until it is granted, with its pages in the set of
 * ballooned ones till then. */
#include "test.h"

static const VbSettings HOLDS = {
    .offered = 1ull << 32 | 0x27, .needs_must_tell = 1, .skips_bad_pages = 1, .holds_deflates = 1};
enum { SET_WORDS = 24 * MIB / 4096 / 64 };

/* A guest whose pages 700 to 709 are in the balloon, with a set of ballooned pages and one of those
 * that a held deflate names. */
static void start_with_ten(struct guest *guest, uint64_t *set)
{
    uint32_t pages[10];
    start(guest, 0, HOLDS, LINUX_FEATURES, 8);
    memset(set, 0, 2 * SET_WORDS * sizeof *set);
    guest->balloon.ballooned = set;
    guest->balloon.deflating = set + SET_WORDS;
    guest->balloon.ballooned_words = SET_WORDS;
    for (uint32_t i = 0; i < 10; i++)
        pages[i] = 700 + i;
    name_pages(guest, VB_INFLATE, pages, 10);
    EXPECT(balloon_notify(&guest->balloon, VB_INFLATE).marked == 10);
}

static uint64_t count_of(const struct guest *guest)
{
    return vb_count_ballooned(guest->balloon.ballooned, guest->balloon.ballooned_words);
}

/* How many pages wait for the grant of the deflate that is held. */
static uint64_t waiting_of(const struct guest *guest)
{
    return vb_count_ballooned(guest->balloon.deflating, guest->balloon.ballooned_words);
}

/* The pages of two runs and one that is no page; the chain isn't given back, and the pages stay in
 * the set. */
static void a_deflate_is_held(void)
{
    static struct guest guest;
    static uint64_t set[2 * SET_WORDS];
    struct seen seen = {0};
    uint32_t pages = 7;
    start_with_ten(&guest, set);
    guest.balloon.context = &seen;
    guest.balloon.on_pages = see_pages;
    EXPECT(!balloon_held_deflate(&guest.balloon, &pages) && pages == 0);
    name_pages(&guest, VB_DEFLATE, (const uint32_t[]){700, 701, 705, 9999999}, 4);
    struct balloon_result result = balloon_notify(&guest.balloon, VB_DEFLATE);
    EXPECT(result.code == VB_OK && result.held && result.held_pages == 3 && result.pages == 3 &&
           result.skipped == 1);
    EXPECT(result.chains == 0 && result.interrupts == 0 && !result.more && result.marked == 0 &&
           result.unmarked == 0);
    EXPECT(seen.calls == 1 && seen.kind == VB_DEFLATE && seen.runs == 2 &&
           seen.run[0].first == 700 && seen.run[0].count == 2);
    EXPECT(used_index(&guest, VB_DEFLATE) == 0 && get(&guest, used_of(VB_DEFLATE) + 4, 8) == 0);
    EXPECT(count_of(&guest) == 10 && vb_is_ballooned(set, SET_WORDS, 705));
    EXPECT(balloon_held_deflate(&guest.balloon, &pages) && pages == 3);
    free_memory(&guest);
}

/* Once it is granted the set loses its pages, and the chain is given back with the driver's
 * interrupt. */
static void a_granted_one_is_given_back(void)
{
    static struct guest guest;
    static uint64_t set[2 * SET_WORDS];
    uint32_t pages = 7;
    start_with_ten(&guest, set);
    name_pages(&guest, VB_DEFLATE, (const uint32_t[]){700, 701, 705}, 3);
    EXPECT(balloon_notify(&guest.balloon, VB_DEFLATE).held);
    name_pages(&guest, VB_INFLATE, (const uint32_t[]){800}, 1);
    EXPECT(balloon_notify(&guest.balloon, VB_INFLATE).marked == 1 &&
           count_of(&guest) == 11); /* the room serves others */
    struct balloon_result result = balloon_give_deflate(&guest.balloon);
    EXPECT(result.code == VB_OK && result.chains == 1 && result.marked == 3 && result.pages == 0 &&
           !result.held);
    EXPECT(result.interrupts == 1 << VB_DEFLATE && result.held_pages == 0);
    EXPECT(used_index(&guest, VB_DEFLATE) == 1 && last_used(&guest, VB_DEFLATE) == 0 &&
           count_of(&guest) == 8);
    EXPECT(!vb_is_ballooned(set, SET_WORDS, 705) && vb_is_ballooned(set, SET_WORDS, 702));
    EXPECT(!balloon_held_deflate(&guest.balloon, &pages) && pages == 0);
    result = balloon_give_deflate(&guest.balloon);
    EXPECT(result.code == VB_NOTHING && result.chains == 0 && result.marked == 0 &&
           used_index(&guest, VB_DEFLATE) == 1);
    put(&guest, avail_of(VB_DEFLATE), 1, 2); /* no interrupt is wanted */
    name_pages(&guest, VB_DEFLATE, (const uint32_t[]){702}, 1);
    EXPECT(balloon_notify(&guest.balloon, VB_DEFLATE).held &&
           balloon_give_deflate(&guest.balloon).interrupts == 0);
    EXPECT(used_index(&guest, VB_DEFLATE) == 2 && count_of(&guest) == 7);
    free_memory(&guest);
}

/* One is held at a time: the queue waits, and the others don't. */
static void one_is_held(void)
{
    static struct guest guest;
    static uint64_t set[2 * SET_WORDS];
    uint32_t pages;
    start_with_ten(&guest, set);
    name_pages(&guest, VB_DEFLATE, (const uint32_t[]){700, 701}, 2);
    put(&guest, buffer_of(VB_DEFLATE) + 100, 704, 4);
    describe(&guest, VB_DEFLATE, 5, buffer_of(VB_DEFLATE) + 100, 4, 0, 0);
    publish(&guest, VB_DEFLATE, 5);
    struct balloon_result result = balloon_notify(&guest.balloon, VB_DEFLATE);
    EXPECT(result.held && result.held_pages == 2 && result.pages == 2);
    result = balloon_notify(&guest.balloon, VB_DEFLATE);
    EXPECT(result.code == VB_NOTHING && !result.held && result.pages == 0);
    EXPECT(balloon_held_deflate(&guest.balloon, &pages) && pages == 2 &&
           used_index(&guest, VB_DEFLATE) == 0);
    EXPECT(balloon_give_deflate(&guest.balloon).marked == 2 && last_used(&guest, VB_DEFLATE) == 0);
    result = balloon_notify(&guest.balloon, VB_DEFLATE);
    EXPECT(result.held && result.held_pages == 1 && used_index(&guest, VB_DEFLATE) == 1);
    EXPECT(balloon_give_deflate(&guest.balloon).marked == 1 && last_used(&guest, VB_DEFLATE) == 5);
    EXPECT(balloon_notify(&guest.balloon, VB_DEFLATE).code == VB_NOTHING);
    free_memory(&guest);
}

/* A reset forgets what is held and empties the set; nothing of it is given back then, and the next
 * life has its own. */
static void a_reset_forgets_it(void)
{
    static struct guest guest;
    static uint64_t set[2 * SET_WORDS];
    struct balloon_result result;
    uint32_t pages = 7;
    start_with_ten(&guest, set);
    name_pages(&guest, VB_DEFLATE, (const uint32_t[]){700, 701}, 2);
    EXPECT(balloon_notify(&guest.balloon, VB_DEFLATE).held);
    start_features(&guest, LINUX_FEATURES, 8);
    EXPECT(!balloon_held_deflate(&guest.balloon, &pages) && pages == 0 && count_of(&guest) == 0 &&
           waiting_of(&guest) == 0);
    EXPECT(balloon_give_deflate(&guest.balloon).code == VB_NOTHING &&
           used_index(&guest, VB_DEFLATE) == 0);
    name_pages(&guest, VB_DEFLATE, (const uint32_t[]){9}, 1);
    EXPECT(balloon_write_status(&guest.balloon, 15, &result) == 0 && result.held &&
           result.held_pages == 1); /* it was there before */
    EXPECT(balloon_give_deflate(&guest.balloon).chains == 1);
    name_pages(&guest, VB_INFLATE, (const uint32_t[]){700, 701}, 2);
    EXPECT(balloon_notify(&guest.balloon, VB_INFLATE).marked == 2);
    name_pages(&guest, VB_DEFLATE, (const uint32_t[]){701}, 1);
    EXPECT(balloon_notify(&guest.balloon, VB_DEFLATE).held_pages == 1);
    EXPECT(balloon_give_deflate(&guest.balloon).marked == 1 && count_of(&guest) == 1 &&
           vb_is_ballooned(set, SET_WORDS, 700));
    free_memory(&guest);
}

/* A queue that stops says the index of the chain that is held, which is available again; a
 * forgotten one is lost. */
static void a_stopped_queue_forgets_it(void)
{
    static struct guest guest;
    static uint64_t set[2 * SET_WORDS];
    uint16_t next;
    uint32_t pages;
    start_with_ten(&guest, set);
    name_pages(&guest, VB_DEFLATE, (const uint32_t[]){700, 701}, 2);
    EXPECT(balloon_notify(&guest.balloon, VB_DEFLATE).held);
    EXPECT(balloon_stop_queue(&guest.balloon, VB_INFLATE, &next) == VB_OK &&
           balloon_held_deflate(&guest.balloon, &pages));
    EXPECT(waiting_of(&guest) == 2 &&
           balloon_stop_queue(&guest.balloon, VB_DEFLATE, &next) == VB_OK && next == 0 &&
           waiting_of(&guest) == 0);
    EXPECT(!balloon_held_deflate(&guest.balloon, &pages) &&
           balloon_give_deflate(&guest.balloon).code == VB_NOTHING);
    EXPECT(count_of(&guest) == 10);
    VbQueueStart at = {table_of(VB_DEFLATE), avail_of(VB_DEFLATE), used_of(VB_DEFLATE), 8, next};
    EXPECT(balloon_start_queue(&guest.balloon, VB_DEFLATE, at) == VB_OK);
    EXPECT(balloon_notify(&guest.balloon, VB_DEFLATE).held_pages == 2 &&
           balloon_give_deflate(&guest.balloon).marked == 2);
    name_pages(&guest, VB_DEFLATE, (const uint32_t[]){702}, 1);
    EXPECT(balloon_notify(&guest.balloon, VB_DEFLATE).held &&
           balloon_forget_held(&guest.balloon, VB_DEFLATE) == VB_OK);
    EXPECT(waiting_of(&guest) == 0 &&
           balloon_forget_held(&guest.balloon, VB_DEFLATE) == VB_NOTHING &&
           balloon_forget_held(&guest.balloon, VB_NO_KIND) == VB_NO_QUEUE);
    EXPECT(balloon_notify(&guest.balloon, VB_DEFLATE).code == VB_NOTHING &&
           used_index(&guest, VB_DEFLATE) == 1);
    EXPECT(count_of(&guest) == 8);
    free_memory(&guest);
}

/* A request that breaks a rule isn't held; one whose used ring can't be written stays held. */
static void what_is_refused(void)
{
    static struct guest guest;
    static uint64_t set[2 * SET_WORDS];
    struct balloon_result result;
    uint32_t pages;
    start_with_ten(&guest, set);
    describe(&guest, VB_DEFLATE, 0, buffer_of(VB_DEFLATE), 3, 0, 0);
    publish(&guest, VB_DEFLATE, 0);
    result = balloon_notify(&guest.balloon, VB_DEFLATE);
    EXPECT(result.code == VB_BROKEN && result.rule == 8 && !result.held &&
           !balloon_held_deflate(&guest.balloon, &pages));
    start_features(&guest, LINUX_FEATURES, 8);
    EXPECT(balloon_write_status(&guest.balloon, 15, &result) == 0);
    name_pages(&guest, VB_DEFLATE, (const uint32_t[]){700}, 1);
    EXPECT(balloon_notify(&guest.balloon, VB_DEFLATE).held);
    EXPECT(balloon_write_status(&guest.balloon, 143, &result) == 0);
    EXPECT(balloon_give_deflate(&guest.balloon).code == VB_NOT_READY &&
           used_index(&guest, VB_DEFLATE) == 0);
    EXPECT(balloon_held_deflate(&guest.balloon, &pages) && pages == 1 && waiting_of(&guest) == 1);
    free_memory(&guest);
}

/* One that names no page takes none out of the set, and needs no second one. */
static void one_of_no_page_is_given_back(void)
{
    static struct guest guest;
    static uint64_t set[2 * SET_WORDS];
    start_with_ten(&guest, set);
    guest.balloon.deflating = NULL;
    name_pages(&guest, VB_DEFLATE, (const uint32_t[]){9999999}, 1);
    EXPECT(balloon_notify(&guest.balloon, VB_DEFLATE).held);
    struct balloon_result result = balloon_give_deflate(&guest.balloon);
    EXPECT(result.code == VB_OK && result.marked == 0 && count_of(&guest) == 10 &&
           used_index(&guest, VB_DEFLATE) == 1);
    free_memory(&guest);
}

/* A saved balloon resumes with what it holds. */
static void it_is_saved(void)
{
    static struct guest guest;
    static uint64_t set[2 * SET_WORDS];
    uint8_t bytes[VB_STATE_BYTES];
    uint32_t pages;
    start_with_ten(&guest, set);
    name_pages(&guest, VB_DEFLATE, (const uint32_t[]){700, 701}, 2);
    EXPECT(balloon_notify(&guest.balloon, VB_DEFLATE).held &&
           balloon_save(&guest.balloon, bytes, sizeof bytes) == VB_OK);
    EXPECT(balloon_forget_held(&guest.balloon, VB_DEFLATE) == VB_OK);
    EXPECT(balloon_restore(&guest.balloon, bytes, sizeof bytes) == VB_OK);
    EXPECT(balloon_held_deflate(&guest.balloon, &pages) && pages == 2);
    EXPECT(balloon_give_deflate(&guest.balloon).code == VB_BAD_ARGUMENT &&
           count_of(&guest) == 10); /* its pages weren't saved */
    set[SET_WORDS + 700 / 64] = 3ull << 700 % 64;
    EXPECT(balloon_give_deflate(&guest.balloon).marked == 2 && used_index(&guest, VB_DEFLATE) == 1);
    EXPECT(waiting_of(&guest) == 0);
    free_memory(&guest);
}

void test_holds(void)
{
    RUN(a_deflate_is_held());
    RUN(a_granted_one_is_given_back());
    RUN(one_is_held());
    RUN(a_reset_forgets_it());
    RUN(a_stopped_queue_forgets_it());
    RUN(what_is_refused());
    RUN(one_of_no_page_is_given_back());
    RUN(it_is_saved());
}
