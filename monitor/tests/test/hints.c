/* Rounds of free page hints (VIRTIO 1.2, 5.5.6.6). */
#include "test.h"

static const uint64_t HINTS = LINUX_FEATURES | VB_F_FREE_PAGE_HINT;

/* What comes to a device, with a word: a round begins, which gets this id; it stops, or ends; the
 * driver resets the device, sends this id, or hints pages, which are told, or come late. */
enum act { NO_ACT, BEGIN, STOP, END, RESET, ID, TOLD, LATE };
struct step {
    enum act act;
    uint32_t word;
};
enum { MOST_STEPS = 16 };

/* The driver sends the id first; STOP (0) follows, once it has no more. */
static const struct step STORIES[][MOST_STEPS] = {
    {{BEGIN, 2}, {LATE, 0}, {ID, 2}, {TOLD, 0}, {TOLD, 0}, {ID, 0}, {LATE, 0}, {END, 0}, {LATE, 0}},
    {{BEGIN, 2}, {ID, 2}, {TOLD, 0}, {END, 0}, {LATE, 0}, {ID, 2}, {LATE, 0}},  /* an id of a round
                                                                                   that ended, */
    {{BEGIN, 2}, {ID, 2}, {TOLD, 0}, {STOP, 0}, {LATE, 0}, {ID, 2}, {LATE, 0}}, /* or that
                                                                                  * stopped; */
    {{BEGIN, 2}, {ID, 2}, {ID, 2}, {TOLD, 0}}, /* a repeated one; */
    {{BEGIN, 2},
     {ID, 2},
     {TOLD, 0},
     {BEGIN, 3},
     {LATE, 0},
     {ID, 2},
     {LATE, 0},
     {ID, 3},
     {TOLD, 0},
     {ID, 2},
     {LATE, 0},
     {ID, 3},
     {TOLD, 0}}, /* one of the round before; */
    {{LATE, 0}, {ID, 0}, {LATE, 0}, {ID, 1}, {LATE, 0}, {ID, 2}, {LATE, 0}}, /* before any round; */
    {{BEGIN, 2},
     {ID, 0},
     {LATE, 0},
     {ID, 1},
     {LATE, 0},
     {ID, 3},
     {LATE, 0},
     {ID, UINT32_MAX},
     {LATE, 0}},
    {{BEGIN, 2}, {ID, 2}, {STOP, 0}, {ID, 0}, {LATE, 0}}, /* STOP and DONE are no ids, */
    {{BEGIN, 2}, {ID, 2}, {END, 0}, {ID, 1}, {LATE, 0}},  /* also while they are shown; */
    {{BEGIN, 2},
     {ID, 2},
     {TOLD, 0},
     {RESET, 0},
     {LATE, 0},
     {ID, 2},
     {LATE, 0},
     {BEGIN, 3},
     {ID, 2},
     {LATE, 0},
     {ID, 3},
     {TOLD, 0}}, /* ids go on over a reset */
};

static struct guest guest;
static struct seen seen;
static uint32_t heard;

static void hear_id(void *context, uint32_t id)
{
    (void)context;
    heard = id;
}

static void begin_guest(uint8_t discards)
{
    const VbSettings settings = {.offered = HINTS | VB_F_PAGE_POISON, .discards_hints = discards};
    memset(&seen, 0, sizeof seen);
    start(&guest, 0, settings, HINTS | VB_F_PAGE_POISON, 8);
    guest.balloon.context = &seen;
    guest.balloon.on_pages = see_pages;
    guest.balloon.on_hint_id = hear_id;
}

static uint32_t shown_id(void)
{
    uint8_t word[4];
    balloon_read_config(&guest.balloon, 8, word, 4);
    return (uint32_t)(word[0] | word[1] << 8 | word[2] << 16) | (uint32_t)word[3] << 24;
}

/* A chain of hints, of these bytes: what it came to. */
static struct balloon_result send(uint64_t address, uint32_t length, uint16_t flags)
{
    describe(&guest, VB_HINT, 0, address, length, flags, 0);
    publish(&guest, VB_HINT, 0);
    return balloon_notify(&guest.balloon, VB_HINT);
}

static struct balloon_result send_id(uint32_t id)
{
    put(&guest, buffer_of(VB_HINT), id, 4);
    return send(buffer_of(VB_HINT), 4, 0);
}

/* Three pages are hinted: told and discarded, or late, and then nothing is told of them, and they
 * keep their bytes. */
static void hint_pages(bool told)
{
    memset(at(&guest, 900 * 4096), 0xaa, 3 * 4096);
    memset(&seen, 0, sizeof seen);
    struct balloon_result result = send(900 * 4096, 3 * 4096, WRITE);
    EXPECT(result.code == VB_OK && result.chains == 1 && result.interrupts == 1 << VB_HINT &&
           result.skipped == 0 && result.in_holes == 0);
    EXPECT(result.pages == (told ? 3 : 0) && result.discarded == (told ? 3 : 0) &&
           result.late == (told ? 0 : 3) && result.kept == 0);
    EXPECT(seen.calls == told && (!told || (seen.kind == VB_HINT && seen.runs == 1 &&
                                            seen.run[0].first == 900 && seen.run[0].count == 3)));
    for (uint32_t page = 900; page < 903; page++)
        EXPECT(get(&guest, page * 4096ull + 4095, 1) == (told ? 0 : 0xaa));
}

static void read_id(uint32_t id)
{
    heard = ~id;
    struct balloon_result result = send_id(id);
    EXPECT(result.code == VB_OK && result.chains == 1 && result.pages == 0 && result.late == 0 &&
           result.interrupts == 1 << VB_HINT);
    EXPECT(heard == id);
}

static void reset_guest(void)
{
    struct balloon_result result;
    start_features(&guest, HINTS | VB_F_PAGE_POISON, 8);
    EXPECT(balloon_write_status(&guest.balloon, 15, &result) == 0);
}

/* One step; what the configuration shows then. */
static uint32_t take(struct step step, uint32_t shown)
{
    uint32_t id;
    switch (step.act) {
    case BEGIN:
        EXPECT(balloon_begin_hints(&guest.balloon, &id) == VB_OK && id == step.word);
        return id;
    case STOP:
        balloon_stop_hints(&guest.balloon);
        return 0;
    case END:
        balloon_end_hints(&guest.balloon);
        return 1;
    case RESET:
        reset_guest();
        return 0;
    case ID:
        read_id(step.word);
        break;
    default:
        hint_pages(step.act == TOLD);
        break;
    }
    return shown;
}

/* Each story, and what the configuration shows after each step; a round is open just where pages
 * are told. */
static void stories_are_told(void)
{
    for (size_t i = 0; i < sizeof STORIES / sizeof *STORIES; i++) {
        const struct step *step = STORIES[i];
        uint32_t shown = 0;
        begin_guest(1);
        for (; step->act != NO_ACT; step++) {
            EXPECT((step->act != TOLD && step->act != LATE) ||
                   vb_hints_open(&guest.balloon.state.device) == (step->act == TOLD));
            shown = take(*step, shown);
            EXPECT(shown_id() == shown);
        }
        free_memory(&guest);
    }
}

/* Hinted pages are discarded only where the settings say so, and where reported ones would be; told
 * they are anyway. */
static void hints_may_be_kept(void)
{
    static const struct {
        uint8_t discards;
        bool keeps;
        uint8_t poison;
        bool kept;
    } rows[] = {
        {1, false, 0, false}, {7, false, 0, false},   {0, false, 0, true},
        {1, true, 0, true},   {1, false, 0xaa, true}, {0, true, 1, true},
    };
    for (size_t i = 0; i < sizeof rows / sizeof *rows; i++) {
        uint32_t id;
        begin_guest(rows[i].discards);
        guest.balloon.keeps_pages = rows[i].keeps;
        EXPECT(balloon_write_config(&guest.balloon, 12, (const uint8_t[]){rows[i].poison, 0, 0, 0},
                                    4) == VB_OK);
        EXPECT(balloon_begin_hints(&guest.balloon, &id) == VB_OK && send_id(id).chains == 1);
        memset(at(&guest, 700 * 4096), 0xaa, 2 * 4096);
        struct balloon_result result = send(700 * 4096, 2 * 4096, WRITE);
        EXPECT(result.pages == 2 && result.late == 0 && seen.runs == 1 &&
               seen.run[0].first == 700 && seen.run[0].count == 2);
        EXPECT(result.kept == (rows[i].kept ? 2 : 0) && result.discarded == (rows[i].kept ? 0 : 2));
        EXPECT(get(&guest, 701 * 4096ull, 1) == (rows[i].kept ? 0xaa : 0));
        free_memory(&guest);
    }
}

/* An id in pieces; and chains in one notice, of which an id in the middle ends the round. */
static void a_notice_has_many_chains(void)
{
    uint32_t id;
    begin_guest(1);
    EXPECT(balloon_begin_hints(&guest.balloon, &id) == VB_OK);
    put(&guest, buffer_of(VB_HINT), id, 4);
    describe(&guest, VB_HINT, 0, buffer_of(VB_HINT), 1, NEXT, 1);
    describe(&guest, VB_HINT, 1, buffer_of(VB_HINT) + 1, 0, NEXT, 2);
    describe(&guest, VB_HINT, 2, buffer_of(VB_HINT) + 1, 3, 0, 0);
    describe(&guest, VB_HINT, 3, 800 * 4096, 2 * 4096, WRITE | NEXT, 4);
    describe(&guest, VB_HINT, 4, HIGH_ADDRESS, 4096, WRITE, 0);
    describe(&guest, VB_HINT, 5, buffer_of(VB_HINT) + 1, 4, 0, 0); /* other bytes */
    for (uint16_t i = 0; i < 4; i++)
        publish(&guest, VB_HINT, (const uint16_t[]){0, 3, 5, 3}[i]);
    struct balloon_result result = balloon_notify(&guest.balloon, VB_HINT);
    EXPECT(result.code == VB_OK && result.chains == 4 && result.pages == 3 &&
           result.discarded == 3 && result.late == 3);
    EXPECT(seen.calls == 1 && seen.runs == 2 && seen.run[1].first == HIGH_ADDRESS / 4096 &&
           used_index(&guest, VB_HINT) == 4);
    free_memory(&guest);
}

/* Queues are numbered without gaps (VIRTIO 1.2, 5.5.2), and the id is shown only where hints are
 * offered. */
static void hints_have_a_queue_where_negotiated(void)
{
    static const struct {
        uint64_t features;
        uint32_t kinds[4];
    } rows[] = {
        {0, {VB_NO_KIND, VB_NO_KIND, VB_NO_KIND, VB_NO_KIND}},
        {VB_F_FREE_PAGE_HINT, {VB_HINT, VB_NO_KIND, VB_NO_KIND, VB_NO_KIND}},
        {STATS_VQ | VB_F_FREE_PAGE_HINT, {VB_STATISTICS, VB_HINT, VB_NO_KIND, VB_NO_KIND}},
        {VB_F_FREE_PAGE_HINT | REPORTING, {VB_HINT, VB_REPORT, VB_NO_KIND, VB_NO_KIND}},
        {STATS_VQ | REPORTING, {VB_STATISTICS, VB_REPORT, VB_NO_KIND, VB_NO_KIND}},
        {STATS_VQ | VB_F_FREE_PAGE_HINT | REPORTING,
         {VB_STATISTICS, VB_HINT, VB_REPORT, VB_NO_KIND}},
    };
    for (size_t i = 0; i < sizeof rows / sizeof *rows; i++)
        for (uint32_t number = 0; number < 6; number++)
            EXPECT(vb_kind_of(rows[i].features, number) ==
                   (number < 2 ? number : rows[i].kinds[number - 2]));
    begin_guest(1);
    EXPECT(balloon_write_config(&guest.balloon, 8, (const uint8_t[]){9, 0, 0, 0}, 4) ==
               VB_BAD_ARGUMENT &&
           shown_id() == 0);
    balloon_end_hints(&guest.balloon);
    EXPECT(shown_id() == 1);
    free_memory(&guest);
    start(&guest, 0, REFUSES, LINUX_FEATURES, 8);
    balloon_end_hints(&guest.balloon);
    EXPECT(shown_id() == 0);
    free_memory(&guest);
}

/* What a driver hints before DRIVER_OK is looked at then, with all queues, and is of no round. */
static void early_hints_are_late(void)
{
    struct balloon_result result;
    begin_guest(1);
    start_features(&guest, HINTS, 8);
    describe(&guest, VB_HINT, 0, 900 * 4096, 3 * 4096, WRITE, 0);
    publish(&guest, VB_HINT, 0);
    EXPECT(balloon_write_status(&guest.balloon, 15, &result) == 0);
    EXPECT(result.chains == 1 && result.late == 3 && result.pages == 0 &&
           result.interrupts == 1 << VB_HINT);
    free_memory(&guest);
}

void test_hints(void)
{
    RUN(stories_are_told());
    RUN(early_hints_are_late());
    RUN(hints_may_be_kept());
    RUN(a_notice_has_many_chains());
    RUN(hints_have_a_queue_where_negotiated());
}
