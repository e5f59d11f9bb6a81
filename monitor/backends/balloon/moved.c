#include "moved.h"

#include "backend.h"
#include "codes.h"
#include "lives.h"
#include "state.h"

/* Where things are in the bytes: docs/LINUX.md has the table. */
enum {
    NAME_AT = 0,
    VERSION_AT = 8,
    LENGTH_AT = 12,
    FLAGS_AT = 16,
    INDEX_AT = 20,
    WORDS_AT = 24,
    STATE_AT = 32,
    WORD_BITS = 64
};
enum { GOES_ON = 1 };

static const char name[8] = "VBMOVED", no_memory[] = "has pages in the balloon that aren't memory",
                  too_few[] = "has fewer pages in its balloon than it was to come with";

static uint32_t get_u32(const uint8_t *bytes, unsigned at)
{
    uint32_t number;
    memcpy(&number, bytes + at, sizeof number);
    return number;
}

static void put_u32(uint8_t *bytes, unsigned at, uint32_t number)
{
    memcpy(bytes + at, &number, sizeof number);
}

/* FNV-1a with 64 bits. */
static uint64_t sum_of(const uint8_t *bytes, size_t length)
{
    uint64_t sum = 0xcbf29ce484222325;
    for (size_t i = 0; i < length; i++)
        sum = (sum ^ bytes[i]) * 0x100000001b3;
    return sum;
}

/* The index at which the queue of inflates continues, which is stopped. */
static uint16_t index_of(const struct backend *backend)
{
    const struct ring *ring = ring_of_kind(backend, VB_INFLATE);
    return ring ? (uint16_t)ring->base : 0;
}

/* What is saved of the balloon, and its set: of a device that was loaded and hasn't begun since, as
 * it was loaded. */
static struct moved moved_of(const struct backend *backend, const uint64_t **set)
{
    const struct balloon *balloon = &backend->balloon;
    bool has_set = balloon->ballooned && !backend->moved.awaits;
    *set = has_set ? balloon->ballooned : backend->room->set;
    if (backend->moved.awaits)
        return backend->moved;
    return (struct moved){.awaits = backend->told.goes_on,
                          .index = index_of(backend),
                          .words = has_set ? (uint32_t)balloon->ballooned_words : 0};
}

size_t moved_save(const struct backend *backend, uint8_t bytes[MOST_MOVED])
{
    const uint64_t *set;
    const struct moved moved = moved_of(backend, &set);
    size_t length = MOVED_HEAD + moved.words * sizeof *set;
    uint32_t code = state_bytes(backend, bytes + STATE_AT);
    if (code != VB_OK)
        return refuse("the device can't be saved: %s", answer_words(code)), 0;
    memset(bytes, 0, STATE_AT);
    memcpy(bytes + NAME_AT, name, sizeof name);
    put_u32(bytes, VERSION_AT, MOVED_VERSION);
    put_u32(bytes, LENGTH_AT, (uint32_t)(length + MOVED_SUM));
    put_u32(bytes, FLAGS_AT, moved.awaits ? GOES_ON : 0);
    put_u32(bytes, INDEX_AT, moved.index);
    put_u32(bytes, WORDS_AT, moved.words);
    memcpy(bytes + MOVED_HEAD, set, moved.words * sizeof *set);
    uint64_t sum = sum_of(bytes, length);
    memcpy(bytes + length, &sum, sizeof sum);
    return length + MOVED_SUM;
}

/* Why bytes are no device that was saved here; NULL where they are one. */
static const char *fault_of(const uint8_t *bytes, size_t length)
{
    uint64_t sum;
    if (length < MOVED_HEAD + MOVED_SUM || memcmp(bytes + NAME_AT, name, sizeof name) != 0)
        return "is none";
    if (get_u32(bytes, VERSION_AT) != MOVED_VERSION)
        return "is of another version";
    uint64_t words = get_u32(bytes, WORDS_AT);
    if (get_u32(bytes, LENGTH_AT) != length ||
        length != MOVED_HEAD + words * sizeof(uint64_t) + MOVED_SUM)
        return "has another length than it says";
    memcpy(&sum, bytes + length - MOVED_SUM, sizeof sum);
    if (sum != sum_of(bytes, length - MOVED_SUM))
        return "was changed: its sum is wrong";
    if (get_u32(bytes, FLAGS_AT) > GOES_ON || get_u32(bytes, INDEX_AT) > UINT16_MAX ||
        get_u32(bytes, WORDS_AT + 4) != 0)
        return "has words that no device has";
    return NULL;
}

/* Whether no page of a set lies at the end of this memory or after it. */
static bool is_within(const struct moved *moved, const uint8_t *set)
{
    uint64_t end = moved->memory_end / BALLOON_PAGE, word;
    for (uint64_t i = end / WORD_BITS; i < moved->words; i++) {
        memcpy(&word, set + i * sizeof word, sizeof word);
        if (i * WORD_BITS >= end ? word != 0 : word >> (end - i * WORD_BITS) != 0)
            return false;
    }
    return true;
}

/* How many pages a set has. */
static uint64_t count_set(const uint8_t *set, uint32_t words)
{
    uint64_t pages = 0, word;
    for (uint32_t i = 0; i < words; i++) {
        memcpy(&word, set + i * sizeof word, sizeof word);
        pages += (uint64_t)__builtin_popcountll(word);
    }
    return pages;
}

/* What a device that is loaded says, beside its saved state. */
static struct moved read_moved(const VbDevice *device, const uint8_t *bytes)
{
    return (struct moved){.awaits = get_u32(bytes, FLAGS_AT) & GOES_ON,
                          .index = (uint16_t)get_u32(bytes, INDEX_AT),
                          .memory_end = device->settings.memory_end,
                          .actual = device->actual,
                          .words = get_u32(bytes, WORDS_AT)};
}

/* Why there is no such balloon, or none of a guest that comes with `given` pages given up; NULL
 * where there may be. */
static const char *fault_of_balloon(const struct moved *moved, const uint8_t *set, uint32_t given)
{
    if (moved->memory_end % BALLOON_PAGE != 0)
        return "has memory that isn't whole pages";
    if (!is_within(moved, set))
        return no_memory;
    return count_set(set, moved->words) < given ? too_few : NULL;
}

bool moved_load(struct backend *backend, const uint8_t *bytes, size_t length)
{
    struct moved moved = {0};
    VbBalloon before = backend->balloon.state;
    const char *fault = fault_of(bytes, length);
    if (!fault && vb_restore(&before.device, &before.held, bytes + STATE_AT, VB_STATE_BYTES))
        fault = "has no saved state of a device";
    if (!fault) {
        moved = read_moved(&before.device, bytes);
        fault = fault_of_balloon(&moved, bytes + MOVED_HEAD, backend->comes_with);
    }
    if (fault) {
        remark(backend, "the device that is to be loaded %s", fault);
        return false;
    }
    if (!moved.awaits && !life_ends(backend))
        return false;
    uint32_t target = backend->balloon.state.device.target;
    state_take(backend, before);
    if (backend->options->is_lent) /* its lender alone sets a target */
        balloon_set_target(&backend->balloon, target);
    backend->told.goes_on = moved.awaits;
    backend->moved = moved;
    memcpy(backend->room->set, bytes + MOVED_HEAD, moved.words * sizeof backend->room->set[0]);
    return true;
}

/* Gives up what is in the balloon: a page may have been sent before it went there. How many pages
 * couldn't be discarded, at most. */
static uint64_t discard_set(const struct backend *backend)
{
    const struct balloon *balloon = &backend->balloon;
    uint64_t end = balloon->ballooned_words * WORD_BITS, page = 0, held = 0;
    while (page < end) {
        uint64_t first = page;
        while (page < end && balloon->ballooned[page / WORD_BITS] >> page % WORD_BITS & 1)
            page++;
        if (page > first)
            held += memory_discard(&backend->memory, first * BALLOON_PAGE,
                                   (page - first) * BALLOON_PAGE);
        page++;
    }
    return held;
}

/* Takes the pages from `first` to before `end` of one set into another. */
static void take_pages(uint64_t *set, const uint64_t *other, uint64_t first, uint64_t end)
{
    while (first < end) {
        uint64_t room = WORD_BITS - first % WORD_BITS,
                 here = room < end - first ? room : end - first;
        uint64_t mask = UINT64_MAX >> (WORD_BITS - here) << first % WORD_BITS;
        set[first / WORD_BITS] |= other[first / WORD_BITS] & mask;
        first += here;
    }
}

/* The pages of the set are the balloon's, where this process keeps a set; false where some aren't
 * memory. They are its driver's as soon as that likes unless it tells the host before. */
static bool take_set(struct backend *backend)
{
    struct balloon *balloon = &backend->balloon;
    const struct moved *moved = &backend->moved;
    const uint64_t *set = backend->room->set;
    size_t bytes = moved->words * sizeof *set;
    bool tells = features_of_device(backend->told.features) & MUST_TELL_HOST;
    if (!balloon->ballooned || balloon->ballooned_words != moved->words)
        return true;
    memset(balloon->ballooned, 0, bytes);
    for (unsigned i = 0; i < backend->memory.count; i++) {
        const struct balloon_region *region = &backend->memory.regions[i];
        uint64_t first = region->guest / BALLOON_PAGE;
        take_pages(balloon->ballooned, set, first, first + region->length / BALLOON_PAGE);
    }
    backend->ballooned = (uint32_t)vb_count_ballooned(balloon->ballooned, moved->words);
    if (tells && !balloon->keeps_pages)
        backend->undiscarded = (uint32_t)discard_set(backend);
    return memcmp(balloon->ballooned, set, bytes) == 0;
}

bool moved_takes_pages(const struct backend *backend)
{
    const uint8_t *set = (const uint8_t *)backend->room->set;
    return memory_is_large(&backend->memory) ||
           count_set(set, backend->moved.words) < backend->ballooned;
}

bool moved_begin(struct backend *backend)
{
    VbDevice *device = &backend->balloon.state.device;
    const struct moved *moved = &backend->moved;
    if (device->settings.memory_end != moved->memory_end)
        return refuse("the device that was loaded has memory up to 0x%llx, and this guest 0x%llx",
                      (unsigned long long)moved->memory_end,
                      (unsigned long long)device->settings.memory_end);
    configuration_write(device, ACTUAL_AT, moved->actual);
    if (!take_set(backend))
        return refuse("the device that was loaded %s", no_memory);
    if (backend->ballooned < backend->comes_with)
        return refuse("the device that was loaded %s", too_few);
    backend->comes_with = 0;
    return true;
}
