/* The set of the pages in the balloon, and large pages that go by it, in plain C. */
#include "reference.h"

VbMarked vb_mark(uint32_t kind, const VbRun *runs, size_t count, uint64_t *set, size_t words)
{
    VbMarked marked = {.code = kind > VB_DEFLATE ? VB_NO_QUEUE : VB_OK};
    for (size_t i = 0; i < count && marked.code == VB_OK; i++)
        if (runs[i].count > 0 && ((uint64_t)runs[i].first + runs[i].count - 1) / 64 >= words)
            marked.code = VB_BAD_ARGUMENT;
    for (size_t i = 0; i < count && marked.code == VB_OK; i++)
        for (uint64_t page = runs[i].first; page < (uint64_t)runs[i].first + runs[i].count; page++)
            if ((set[page / 64] >> page % 64 & 1) != (kind == VB_INFLATE)) {
                set[page / 64] ^= 1ull << page % 64;
                marked.pages++;
            }
    return marked;
}

uint64_t vb_unmark(const uint64_t *pages, size_t count, uint64_t *set, size_t words)
{
    uint64_t changed = 0;
    for (size_t i = 0; i < words && i < count; i++) {
        changed += (uint64_t)__builtin_popcountll(set[i] & pages[i]);
        set[i] &= ~pages[i];
    }
    return changed;
}

uint32_t vb_is_ballooned(const uint64_t *set, size_t words, uint32_t page)
{
    return page / 64 < words && (set[page / 64] >> page % 64 & 1);
}

uint64_t vb_count_ballooned(const uint64_t *set, size_t words)
{
    uint64_t count = 0;
    for (size_t i = 0; i < words; i++)
        count += (uint64_t)__builtin_popcountll(set[i]);
    return count;
}

/* Whether each page of a large page is one of the part's, or in the set. */
static bool is_all_given(uint64_t page, uint64_t past, uint64_t first, uint64_t end,
                         const uint64_t *set, size_t words)
{
    for (; page < past; page++)
        if ((page < first || page >= end) &&
            (page / 64 >= words || !(set[page / 64] >> page % 64 & 1)))
            return false;
    return true;
}

static bool may_go(const VbRegion *region, uint64_t size, const VbCut *part)
{
    bool known = size >= REGION_PAGE && size <= 1u << 30 && (size & (size - 1)) == 0;
    return known && is_region(region) && region->guest % size == 0 && region->length % size == 0 &&
           region->in_file % size == 0 && part->offset % REGION_PAGE == 0 &&
           part->length % REGION_PAGE == 0 && part->offset <= region->length &&
           part->length <= region->length - part->offset;
}

VbLarge vb_large_pages(const VbDevice *device, const VbRegion *region, uint64_t page_size,
                       const VbCut *part, const uint64_t *set, size_t words)
{
    VbLarge large = {{part->region, 0, 0, 0}, part->length / REGION_PAGE};
    if (!may_go(region, page_size, part))
        return large;
    uint64_t small = page_size / REGION_PAGE, first = (region->guest + part->offset) / REGION_PAGE;
    uint64_t end = first + part->length / REGION_PAGE, low = 0, high = 0;
    words = device->features & MUST_TELL_HOST ? words : 0;
    for (uint64_t page = first / small * small; first < end && page < end; page += small) {
        if (!is_all_given(page, page + small, first, end, set, words))
            continue;
        low = high ? low : page;
        high = page + small;
        large.waiting -= (high < end ? high : end) - (page > first ? page : first);
    }
    if (high) {
        large.cut.offset = low * REGION_PAGE - region->guest;
        large.cut.in_file = region->in_file + large.cut.offset;
        large.cut.length = (high - low) * REGION_PAGE;
    }
    return large;
}
