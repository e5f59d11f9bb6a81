#include "large.h"

#include "backend.h"

enum { WORD_BITS = 64 };

/* How many pages from `first` to before `end` are in a set, without those of another one, if there
 * is one. */
static uint64_t count(const uint64_t *set, const uint64_t *but, uint64_t first, uint64_t end)
{
    uint64_t pages = 0;
    while (first < end) {
        uint64_t room = WORD_BITS - first % WORD_BITS, at = first / WORD_BITS,
                 here = room < end - first ? room : end - first;
        uint64_t mask = UINT64_MAX >> (WORD_BITS - here) << first % WORD_BITS;
        pages += (uint64_t)__builtin_popcountll(set[at] & mask & ~(but ? but[at] : 0));
        first += here;
    }
    return pages;
}

/* Of a region. Its large pages are discarded where they begin on one of the guest's, too, and its
 * driver tells the host before it takes a page back. */
static uint64_t held_of(const struct backend *backend, const struct balloon_region *region,
                        const uint64_t *but)
{
    const struct balloon *balloon = &backend->balloon;
    bool tells = features_of_device(backend->told.features) & MUST_TELL_HOST;
    bool is_whole = tells && region->guest % region->page_size == 0;
    uint64_t page = region->guest / BALLOON_PAGE, large = region->page_size / BALLOON_PAGE,
             held = 0, last = page + region->length / BALLOON_PAGE,
             end = balloon->ballooned_words * WORD_BITS;
    for (end = end < last ? end : last; page < end; page += large) {
        uint64_t pages =
            count(balloon->ballooned, but, page, page + large < end ? page + large : end);
        held += pages < large || !is_whole ? pages : 0;
    }
    return held;
}

static uint64_t held_without(const struct backend *backend, const uint64_t *but)
{
    uint64_t held = 0;
    for (unsigned i = 0; backend->balloon.ballooned && i < backend->memory.count; i++) {
        const struct balloon_region *region = &backend->memory.regions[i];
        held += region->page_size > BALLOON_PAGE ? held_of(backend, region, but) : 0;
    }
    return held;
}

uint64_t large_held(const struct backend *backend)
{
    return held_without(backend, NULL);
}

uint32_t large_asks(const struct backend *backend, uint32_t pages)
{
    uint64_t before = large_held(backend),
             after = held_without(backend, backend->balloon.deflating) + pages;
    return after > before ? (uint32_t)(after - before) : 0;
}
