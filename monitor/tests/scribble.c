/* A device at work while another processor scribbles over its rings and buffers: 1,000,000 notices.
 *
 * Each thing that the library says is explained: the plain implementation says the same of the same
 * answers. Data pages have stamps. A page that a copy names is zeros before its chain is given
 * back, and gets its stamp again; all other stamps stay, and in a notice that keeps all pages each
 * one does, and so do the bytes before and after guest memory.
 *
 *     scribble [NOTICES]
 */
#include "scribble/scribble.h"
#include <pthread.h>

enum { SIZE = 16, NOTICES = 1000000, GUARD = MIB, FIRST_DATA = 256 };

struct guest guest;
static atomic_bool stop, started;

/* ---- stamps */

static bool has_stamp(uint64_t page)
{
    return page >= FIRST_DATA && host_of(&guest.balloon, page * 4096) != NULL;
}

static uint64_t *stamp_of(uint64_t page)
{
    return (uint64_t *)(void *)at(&guest, page * 4096 + 2048);
}

void see_pages(uint32_t kind)
{
    const bool *it = is_named;
    names = false;
    while ((it = memchr(it, true, (size_t)(is_named + PAGES - it))) != NULL) {
        uint64_t page = (uint64_t)(it++ - is_named);
        if (!has_stamp(page))
            continue;
        EXPECT(*stamp_of(page) == (kind == VB_DEFLATE || guest.balloon.keeps_pages ? page : 0));
        *stamp_of(page) = page;
    }
}

void stamp_again(void)
{
    names = false;
    for (uint64_t page = 0; page < PAGES; page++)
        if (is_named[page] && has_stamp(page))
            *stamp_of(page) = page;
}

static void expect_stamps(void)
{
    for (uint64_t page = FIRST_DATA; page < PAGES; page++)
        EXPECT(!has_stamp(page) || *stamp_of(page) == page);
}

/* ---- the other processor */

static uint64_t next_random(uint64_t *state)
{
    *state ^= *state << 13;
    *state ^= *state >> 7;
    *state ^= *state << 17;
    return *state;
}

/* A page of data mostly, of a hole or past the end now and then. */
static uint64_t any_page(uint64_t random)
{
    uint64_t page = FIRST_DATA + random / 64 % (2048 - FIRST_DATA);
    return random % 64 == 0 ? random >> 32 : random % 64 == 1 ? 4090 + random / 64 % 64 : page;
}

static uint32_t any_length(uint32_t kind, bool has_pages, uint64_t random)
{
    if (random % 32 == 0)
        return (uint32_t)(random >> 32);
    if (has_pages)
        return (uint32_t)(1 + random / 32 % 8) * 4096;
    if (kind == VB_HINT)
        return 4;
    if (random % 32 == 1 && kind != VB_STATISTICS)
        return 4 * VB_MAX_BYTES; /* four portions, mostly of page 0, which is skipped */
    return kind == VB_STATISTICS ? (uint32_t)(random / 32 % 12) * 10
                                 : (uint32_t)(random / 32 % 24) * 4;
}

static void scribble_descriptor(uint32_t kind, uint64_t random, uint64_t *state)
{
    uint64_t where = table_of(kind) + 16 * (random % SIZE);
    const bool has_pages =
        kind == VB_REPORT || (kind == VB_HINT && random % 2); /* of hints every other descriptor */
    switch (random / SIZE % 4) {
    case 0:
        if (has_pages)
            put(&guest, where, any_page(next_random(state)) * 4096, 8);
        else
            put(&guest, where, buffer_of(kind) + random / 512 % 4, 8);
        break;
    case 1:
        put(&guest, where + 8, any_length(kind, has_pages, next_random(state)), 4);
        break;
    case 2:
        put(&guest, where + 12,
            (random / 512 % 64 == 0 ? random >> 40 : (has_pages ? WRITE : 0)) |
                (random / 32768 % 4 == 0 ? NEXT : 0),
            2);
        break;
    default:
        put(&guest, where + 14, random / 512 % 64 == 0 ? random >> 40 : random / 32768 % SIZE, 2);
    }
}

static void *scribble(void *nothing)
{
    uint64_t state = 88172645463325252ull;
    for (; !stop; started = true) {
        uint64_t random = next_random(&state), kind = random % VB_NO_KIND;
        switch (random / VB_NO_KIND % 4) {
        case 0:
            put(&guest, avail_of((uint32_t)kind) + 2,
                random / 16 % 256 == 0 ? random >> 40 : random / 4096 % 8, 2);
            break;
        case 1:
            put(&guest, avail_of((uint32_t)kind) + 4 + 2 * (random / 16 % SIZE),
                random / 256 % (SIZE + 1), 2);
            put(&guest, used_of((uint32_t)kind) + 4 * (random / 16384 % (1 + 2 * SIZE)),
                random >> 32, 4);
            break;
        case 2:
            scribble_descriptor((uint32_t)kind, random / 16, &state);
            break;
        default:
            put(&guest, buffer_of((uint32_t)kind) + 4 * (random / 16 % 24),
                kind == VB_HINT ? random / 512 % 4 : any_page(next_random(&state)), 4);
        }
    }
    return nothing;
}

/* ---- the device */

/* Memory with bytes before and after it that nobody may touch. */
static uint8_t *guarded(size_t length)
{
    uint8_t *all =
        mmap(NULL, length + 2 * GUARD, PROT_READ | PROT_WRITE, MAP_PRIVATE | MAP_ANONYMOUS, -1, 0);
    EXPECT(all != MAP_FAILED);
    memset(all, 0xa5, GUARD);
    memset(all + GUARD + length, 0xa5, GUARD);
    return all + GUARD;
}

static void expect_guards(const uint8_t *memory, size_t length)
{
    for (size_t i = 0; i < GUARD; i++)
        EXPECT(memory[-1 - (ptrdiff_t)i] == 0xa5 && memory[length + i] == 0xa5);
}

/* The driver starts its device, or starts it again. */
static void start_device(void)
{
    struct balloon_result result;
    may_call = false;
    guest.balloon.most_pages = UINT32_MAX; /* nothing pauses */
    start_features(&guest, LINUX_FEATURES | VB_F_FREE_PAGE_HINT, SIZE);
    EXPECT(balloon_write_status(&guest.balloon, 15, &result) == 0);
    balloon_forget_held(&guest.balloon, VB_STATISTICS);
    balloon_forget_held(&guest.balloon, VB_DEFLATE);
    may_call = true;
}

/* Starts the device again where it was called between two steps since. */
static bool was_called(uint64_t calls)
{
    if (calls_between == calls)
        return false;
    start_device();
    return true;
}

static void begin(void)
{
    const VbSettings settings = {.offered = LINUX_FEATURES | VB_F_FREE_PAGE_HINT,
                                 .reserved_pages = 16,
                                 .skips_bad_pages = 1,
                                 .discards_hints = 1};
    uint8_t *high = guarded(HIGH_MIB * MIB), *low = guarded(LOW_MIB * MIB);
    guest.regions[0] =
        (struct balloon_region){HIGH_ADDRESS, HIGH_MIB * MIB, high, BALLOON_PRIVATE, 0, 0};
    guest.regions[1] = (struct balloon_region){0, LOW_MIB * MIB, low, BALLOON_PRIVATE, 0, 0};
    EXPECT(balloon_init(&guest.balloon, guest.regions, 2, settings) == VB_OK);
    for (uint64_t page = FIRST_DATA; page < PAGES; page++)
        if (has_stamp(page))
            *stamp_of(page) = page;
    start_device();
}

static uint64_t pauses;

/* What a notice comes to, with all of its pauses. */
static struct balloon_result notify(uint32_t kind)
{
    struct balloon_result result = balloon_notify(&guest.balloon, kind);
    while (result.more && kind <= VB_DEFLATE && guest.balloon.paused[kind].notice.what) {
        const uint64_t pages = result.pages, kept = result.kept, discarded = result.discarded;
        EXPECT(result.code == VB_OK && result.error == 0);
        result = balloon_notify(&guest.balloon, kind);
        result.pages += pages, result.kept += kept, result.discarded += discarded;
        pauses++;
    }
    return result;
}

/* A notice, from a device that has taken a little less than the index of some moment; the code that
 * it came to. */
static uint32_t notice(uint32_t kind, uint64_t random)
{
    VbBalloon *state = &guest.balloon.state;
    VbQueue *queue = ring_of_kind(&guest.balloon, kind);
    uint16_t index = (uint16_t)get(&guest, queue->avail + 2, 2);
    state->device.status = 15;
    state->device.settings.skips_bad_pages = random / 16 % 4 != 0;
    state->device.settings.holds_deflates = random / 256 % 4 == 0;
    if (random % 4 != 0)
        queue->next_avail = (uint16_t)(index - random / 4 % 4);
    guest.balloon.keeps_pages = random / 64 % 4 == 0;
    if (random / 1024 % 4 == 0)
        state->device.round =
            (VbRound){.shown = random / 4096 % 4, .last = 3, .opened = random / 16384 % 2};
    guest.balloon.most_pages =
        random / 65536 % 2 ? UINT32_MAX : (uint32_t)(1 + random / 131072 % 1024);
    const uint64_t calls = calls_between;
    struct balloon_result result = notify(kind);
    if (was_called(calls))
        return VB_STALE;
    bool keeps = guest.balloon.keeps_pages && kind != VB_DEFLATE;
    EXPECT(result.code <= VB_BROKEN && result.kept == (keeps ? result.pages : 0) &&
           result.error == 0);
    EXPECT(!guest.balloon.keeps_pages || result.discarded == 0);
    EXPECT(result.configuration == (result.code == VB_BROKEN));
    EXPECT(!result.held || result.held_pages == result.pages);
    uint32_t given = state->held.statistics ? balloon_ask_statistics(&guest.balloon).code : VB_OK;
    if (result.held && calls_between == calls)
        given = balloon_give_deflate(&guest.balloon).code;
    if (was_called(calls))
        return VB_STALE;
    EXPECT(given == VB_OK);
    return result.code;
}

int main(int count, char **words)
{
    unsigned long long codes[VB_NO_KIND][3] = {{0}};
    uint64_t notices = count > 1 ? strtoull(words[1], NULL, 10) : NOTICES;
    uint64_t state = 1234567890123456789ull;
    pthread_t thread;
    begin();
    EXPECT(pthread_create(&thread, NULL, scribble, NULL) == 0);
    while (!started)
        usleep(100);
    for (uint64_t i = 0; i < notices; i++) {
        uint32_t kind = i % VB_NO_KIND;
        uint32_t code = notice(kind, next_random(&state));
        if (code != VB_STALE)
            codes[kind][code]++;
        if (i % 1024 == 0)
            expect_stamps();
    }
    stop = true;
    pthread_join(thread, NULL);
    expect_stamps();
    expect_guards(guest.regions[0].host, HIGH_MIB * MIB);
    expect_guards(guest.regions[1].host, LOW_MIB * MIB);
    for (uint32_t kind = 0; kind < VB_NO_KIND; kind++) {
        printf("queue of kind %u: served %llu, nothing %llu, broken %llu\n", kind,
               codes[kind][VB_OK], codes[kind][VB_NOTHING], codes[kind][VB_BROKEN]);
        EXPECT(codes[kind][VB_OK] > 0 && codes[kind][VB_NOTHING] > 0 && codes[kind][VB_BROKEN] > 0);
    }
    printf("ok  %llu notices, %llu copies that changed at once, %llu pauses, %llu calls between "
           "steps\n",
           (unsigned long long)notices, (unsigned long long)changed, (unsigned long long)pauses,
           (unsigned long long)calls_between);
    EXPECT((changed > 0 && pauses > 0 && calls_between > 0) || notices < NOTICES);
    return 0;
}
