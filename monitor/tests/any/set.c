/* Any set of ballooned pages, and large pages that go by it. */
#include "any.h"

uint64_t went;

/* A run of a set of `words` words: usually within it, at an end of a word as often as not. */
static VbRun any_run(size_t words)
{
    VbRun run = {(uint32_t)(any() % (64 * words + 1)),
                 (uint32_t)(once_in(2) ? any() % 300 : any() % 3)};
    if (once_in(2))
        run.first -= run.first % 64;
    if (once_in(16))
        run = (VbRun){(uint32_t)any_number(), (uint32_t)any_number()};
    return !once_in(16) && run.first + (uint64_t)run.count > 64 * words ? (VbRun){run.first, 0}
                                                                        : run;
}

void call_mark(void)
{
    static uint64_t before[64], twin[64];
    uint32_t kind = once_in(8) ? (uint32_t)any_number() : any() % 2;
    size_t words = any() % 65, count = any() % 8;
    VbRun *runs = list_of(0, count * sizeof *runs);
    uint64_t *set = list_of(1, words * sizeof *set);
    for (size_t i = 0; i < count; i++)
        runs[i] = any_run(words);
    for (size_t i = 0; i < words; i++)
        set[i] = before[i] = twin[i] = once_in(4) ? 0 : once_in(4) ? UINT64_MAX : any();
    VbMarked why = reference_mark(kind, runs, count, twin, words),
             marked = vb_mark(kind, runs, count, set, words);
    EXPECT(marked.code == why.code && marked.pages == why.pages &&
           memcmp(set, twin, words * sizeof *set) == 0);
    EXPECT(marked.code == VB_OK || memcmp(set, before, words * sizeof *set) == 0);
    uint64_t members = vb_count_ballooned(set, words), others = vb_count_ballooned(before, words);
    EXPECT(members == reference_count_ballooned(set, words));
    EXPECT(marked.code != VB_OK ||
           members == (kind == VB_INFLATE ? others + marked.pages : others - marked.pages));
    size_t others_words = any() % 65;
    uint64_t *others_set = list_of(2, others_words * sizeof *others_set);
    for (size_t i = 0; i < others_words; i++)
        others_set[i] = once_in(2) ? 0 : any() & any();
    EXPECT(vb_unmark(others_set, others_words, set, words) ==
           reference_unmark(others_set, others_words, twin, words));
    EXPECT(memcmp(set, twin, words * sizeof *set) == 0 &&
           vb_count_ballooned(set, words) == reference_count_ballooned(twin, words));
    uint32_t page = (uint32_t)(once_in(4) ? any_number() : any() % (64 * words + 2));
    EXPECT(vb_is_ballooned(set, words, page) == reference_is_ballooned(set, words, page));
    answers[marked.code]++;
}

/* Parts of regions whose pages are large: usually of 16 KiB, in sets of which most pages are
  * there. */
void call_large(void)
{
    VbDevice device = any_device();
    VbRegion region = {any() % 8 * 65536, any() % 8 * 65536, any() % 8 * 65536};
    if (once_in(8))
        region = (VbRegion){any_number(), any_number(), any_number()};
    VbCut part = {any() % 5, any() % 130 * 4096, any(), any() % 130 * 4096};
    if (once_in(8))
        part = (VbCut){any(), any_number(), any(), any_number()};
    size_t words = any() % 9;
    uint64_t *set = list_of(0, words * sizeof *set),
             size = once_in(4) ? any_number() : 4096ull << any() % 6;
    for (size_t i = 0; i < words; i++)
        set[i] = once_in(2) ? UINT64_MAX : any() | any() | any() | any() | any();
    VbLarge large = vb_large_pages(&device, &region, size, &part, set, words);
    VbLarge why = reference_large_pages(&device, &region, size, &part, set, words);
    EXPECT(large.cut.region == why.cut.region && large.cut.offset == why.cut.offset &&
           large.cut.length == why.cut.length);
    EXPECT(large.cut.in_file == why.cut.in_file && large.waiting == why.waiting);
    went += large.cut.length > 0;
}
