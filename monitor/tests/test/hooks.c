/* Calls on a balloon in a hook of a notice. A hook of the Rust crate can't make any, as the balloon
 * is borrowed. */
#include "amid.h"

#ifdef RUST_SHIM
void test_hooks(void)
{
}
#else
/* What the nth hook calls that comes, in a notice of this kind's queue. */
static struct {
    void (*call)(void);
    unsigned left;
    uint32_t kind;
} hook;

static void end_round(void)
{
    balloon_end_hints(&amid.balloon);
}

static void happen(void)
{
    if (hook.left > 0 && --hook.left == 0)
        hook.call();
}

static void on_pages(void *context, uint32_t kind, const VbRun *runs, uint32_t count)
{
    (void)context, (void)kind, (void)runs, (void)count;
    happen();
}

static void on_statistics(void *context, const VbStatistic *figures, uint32_t count)
{
    (void)context, (void)figures, (void)count;
    happen();
}

static void on_hint_id(void *context, uint32_t id)
{
    (void)context, (void)id;
    happen();
}

static int on_discard(void *context, const struct balloon_region *region, uint64_t from,
                      uint64_t length)
{
    (void)context;
    int error = balloon_discard_bytes(region, from, length);
    happen();
    return error;
}

/* After the reset nothing may be read of the queue. */
static void reset_here(void)
{
    struct balloon_result result;
    EXPECT(balloon_write_status(&amid.balloon, 0, &result) == 0);
    EXPECT(mprotect(at(&amid, table_of(hook.kind)), 2 * 4096, PROT_NONE) == 0);
}

/* A notice of which a hook calls this the nth time that it is called. */
static struct balloon_result call_in(uint32_t kind, void (*call)(void), unsigned nth, bool discards)
{
    offer(kind);
    hook.call = call;
    hook.left = nth;
    hook.kind = kind;
    amid.balloon.on_pages = discards ? NULL : on_pages;
    amid.balloon.discard = discards ? on_discard : NULL;
    amid.balloon.on_statistics = on_statistics;
    amid.balloon.on_hint_id = on_hint_id;
    return balloon_notify(&amid.balloon, kind);
}

/* The driver resets the device in a hook: no page is discarded, and no used element is written. */
static void a_hook_may_reset(void)
{
    for (uint32_t kind = 0; kind < VB_NO_KIND; kind++) {
        struct balloon_result result = call_in(kind, reset_here, 1, false);
        EXPECT(result.code == VB_STALE && used_since(kind) == 0 && are_whole() &&
               !result.interrupts && !result.configuration);
        EXPECT(result.pages == (kind == VB_STATISTICS ? 0 : COUNT) && result.discarded == 0 &&
               result.in_holes == 0);
        EXPECT(result.chains == (kind == VB_STATISTICS) &&
               result.kept == (kind == VB_STATISTICS || kind == VB_DEFLATE ? 0 : COUNT));
        starts_again();
        free_memory(&amid);
    }
    struct balloon_result result =
        call_in(VB_REPORT, reset_here, 2, false); /* in the second chain's */
    EXPECT(result.code == VB_STALE && result.chains == 1 && used_since(VB_REPORT) == 1 &&
           result.discarded == COUNT);
    EXPECT(result.kept == COUNT && result.pages == 2 * COUNT);
    starts_again();
    free_memory(&amid);
}

/* So it does as an id is told, or between two parts that are discarded. */
static void later_hooks_may_reset(void)
{
    offer(VB_HINT);
    describe(&amid, VB_HINT, 0, buffer_of(VB_HINT), 4, 0, 0);
    hook.call = reset_here;
    hook.left = 1;
    hook.kind = VB_HINT;
    amid.balloon.on_hint_id = on_hint_id;
    struct balloon_result result = balloon_notify(&amid.balloon, VB_HINT);
    EXPECT(result.code == VB_STALE && result.chains == 0 && used_since(VB_HINT) == 0 &&
           are_whole());
    starts_again();
    free_memory(&amid);
    offer(VB_REPORT);
    describe(&amid, VB_REPORT, 0, 2047 * 4096, 2050 * 4096, WRITE,
             0); /* two parts, over the hole */
    memset(at(&amid, HIGH_ADDRESS), BYTE, 4096);
    hook.left = 1;
    hook.kind = VB_REPORT;
    amid.balloon.discard = on_discard;
    result = balloon_notify(&amid.balloon, VB_REPORT);
    EXPECT(result.code == VB_STALE && result.discarded == 1 &&
           get(&amid, HIGH_ADDRESS, 1) == BYTE && used_since(VB_REPORT) == 0);
    EXPECT(result.kept == 2049 && result.in_holes == 0);
    starts_again();
    free_memory(&amid);
}

/* The host ends the round in a hook: hints aren't discarded, their chain is given back, and the
 * next ones are late. */
static void a_hook_may_end_a_round(void)
{
    struct balloon_result result = call_in(VB_HINT, end_round, 1, false);
    EXPECT(result.code == VB_OK && result.chains == 2 && used_since(VB_HINT) == 2 && are_whole());
    EXPECT(result.pages == COUNT && result.kept == COUNT && result.late == COUNT &&
           result.discarded == 0 && result.in_holes == 0);
    free_memory(&amid);
    result =
        call_in(VB_REPORT, end_round, 1, false); /* a report's pages are discarded all the same */
    EXPECT(result.code == VB_OK && result.discarded == 2 * COUNT && used_since(VB_REPORT) == 2);
    free_memory(&amid);
    result =
        call_in(VB_HINT, end_round, 1, true); /* the first chain's only part is discarded already */
    EXPECT(result.code == VB_OK && result.discarded == COUNT && result.late == COUNT &&
           used_since(VB_HINT) == 2);
    free_memory(&amid);
}

static struct balloon_result nested;
static uint32_t refused;

static void notify_here(void)
{
    nested = balloon_notify(&amid.balloon, VB_DEFLATE);
    EXPECT(balloon_ask_statistics(&amid.balloon).more && balloon_give_deflate(&amid.balloon).more);
    refused = balloon_set_regions(&amid.balloon, amid.regions, 1);
}

/* No notice begins in a hook, and no region changes; what the notice does continues. */
static void nothing_begins_in_a_hook(void)
{
    offer(VB_INFLATE);
    name_pages(&amid, VB_DEFLATE, (const uint32_t[]){700}, 1);
    hook.call = notify_here;
    hook.left = 1;
    amid.balloon.on_pages = on_pages;
    struct balloon_result result = balloon_notify(&amid.balloon, VB_INFLATE);
    EXPECT(nested.code == VB_NOTHING && nested.more && nested.chains == 0 &&
           refused == VB_BAD_ARGUMENT);
    EXPECT(result.code == VB_OK && result.chains == 2 && result.discarded == 2 * COUNT &&
           used_index(&amid, VB_INFLATE) == 2);
    EXPECT(balloon_notify(&amid.balloon, VB_DEFLATE).chains == 1 &&
           balloon_set_regions(&amid.balloon, amid.regions, 2) == VB_OK);
    free_memory(&amid);
}

/* Bytes that a hook has copied: of the row of a first descriptor, and others. */
static size_t copied_rows, copied;

/* Copies as the shim does, but that each number is one more. */
static void on_copy(void *context, const struct balloon_region *region, uint64_t from, uint8_t *to,
                    size_t length)
{
    (void)context;
    memcpy(to, region->host + from, length);
    *(length == 16 ? &copied_rows : &copied) += length;
    if (length != 16)
        for (size_t i = 0; i < length; i += 4)
            to[i]++;
}

/* What is copied is what the hook copies, and nothing else. */
static void a_hook_may_copy(void)
{
    offer(VB_INFLATE);
    memset(at(&amid, (FIRST + COUNT) * 4096), BYTE, 4096);
    amid.balloon.copy = on_copy;
    copied = copied_rows = 0;
    struct balloon_result result = balloon_notify(&amid.balloon, VB_INFLATE);
    EXPECT(result.code == VB_OK && result.chains == 2 && result.discarded == 2 * COUNT);
    EXPECT(copied_rows == 2 * 16 && copied == 2 * 4 * COUNT);
    EXPECT(*at(&amid, FIRST * 4096) == BYTE && *at(&amid, (FIRST + COUNT) * 4096) == 0);
    free_memory(&amid);
}

/* The stretches that a hook was told of: their addresses, lengths, and what was there then. */
static struct stretch {
    uint64_t at, length, there;
} stretches[8];
static uint32_t stretch_count;

static void on_written(void *context, const struct balloon_region *region, uint64_t from,
                       uint64_t length)
{
    struct stretch *it = &stretches[stretch_count++];
    (void)context;
    EXPECT(stretch_count < 8 && length <= sizeof it->there);
    *it = (struct stretch){region->guest + from, length, 0};
    memcpy(&it->there, region->host + from, length);
}

static void expect_stretch(const struct stretch *it, uint64_t at, uint64_t length, uint64_t there)
{
    EXPECT(it->at == at && it->length == length && le64toh(it->there) == there);
}

/* Each stretch that is written is named, once it is there, and no other one. */
static void a_hook_hears_what_was_written(void)
{
    for (uint32_t kind = 0; kind < VB_NO_KIND; kind++) {
        offer(kind);
        const uint16_t before = used_index(&amid, kind);
        for (uint32_t i = 0; i < 16; i++)
            put(&amid, used_of(kind) + 4 + 4 * i, 0xaaaaaaaa, 4);
        stretch_count = 0;
        amid.balloon.on_written = on_written;
        EXPECT(balloon_notify(&amid.balloon, kind).code == VB_OK);
        EXPECT(kind != VB_STATISTICS || balloon_ask_statistics(&amid.balloon).code == VB_OK);
        EXPECT(used_since(kind) > 0 && stretch_count == 3u * used_since(kind));
        for (uint32_t i = 0; i < used_since(kind); i++) {
            const uint64_t element = used_of(kind) + 4 + 8 * (before + i);
            const uint16_t after = (uint16_t)(before + i + 1);
            expect_stretch(&stretches[3 * i], element, 4, i);
            expect_stretch(&stretches[3 * i + 1], element + 4, 4, 0);
            expect_stretch(&stretches[3 * i + 2], used_of(kind) + 2, 2, after);
        }
        free_memory(&amid);
    }
}

void test_hooks(void)
{
    RUN(a_hook_may_copy());
    RUN(a_hook_hears_what_was_written());
    RUN(a_hook_may_reset());
    RUN(later_hooks_may_reset());
    RUN(a_hook_may_end_a_round());
    RUN(nothing_begins_in_a_hook());
}
#endif
