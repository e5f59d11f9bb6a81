/* The set of the pages in a guest's balloon, and that of a held deflate's pages, as its memory
 * comes and goes. */
#include "marks.h"

#include "kept.h"

#include <stdlib.h>
#include <string.h>

enum { WORD_BITS = 64 };

/* Takes the marks of the pages from `first` to before `end` out of a set; returns how many there
 * were. */
static uint32_t clear(uint64_t *set, uint64_t first, uint64_t end)
{
    uint32_t count = 0;
    while (first < end) {
        uint64_t room = WORD_BITS - first % WORD_BITS,
                 here = room < end - first ? room : end - first;
        uint64_t mask = UINT64_MAX >> (WORD_BITS - here) << first % WORD_BITS;
        count += (uint32_t)__builtin_popcountll(set[first / WORD_BITS] & mask);
        set[first / WORD_BITS] &= ~mask;
        first += here;
    }
    return count;
}

/* These pages aren't memory. */
static void forget(struct backend *backend, const struct marks *marks, uint64_t first, uint64_t end)
{
    backend->ballooned -= clear(marks->set, first, end);
    if (marks->deflating)
        clear(marks->deflating, first, end);
}

/* Takes out the marks of all pages that aren't the memory that was noted. */
static void clear_holes(struct backend *backend, struct marks *marks)
{
    uint64_t end = backend->balloon.ballooned_words * WORD_BITS, page = 0;
    for (unsigned i = 0; i < marks->span_count; i++) {
        const struct span *span = &marks->spans[i];
        forget(backend, marks, page, span->first < end ? span->first : end);
        page = span->end;
    }
    forget(backend, marks, page, end);
}

static int compare(const void *one, const void *other)
{
    uint64_t first = ((const struct span *)one)->first,
             second = ((const struct span *)other)->first;
    return (first > second) - (first < second);
}

/* Notes where the guest's memory is now. */
static void note_memory(struct marks *marks, const struct guest_memory *memory)
{
    marks->span_count = memory->count;
    for (unsigned i = 0; i < memory->count; i++) {
        uint64_t first = memory->regions[i].guest / BALLOON_PAGE;
        marks->spans[i] = (struct span){first, first + memory->regions[i].length / BALLOON_PAGE};
    }
    qsort(marks->spans, marks->span_count, sizeof marks->spans[0], compare);
}

/* The words after the set are zeros: the pages that it loses aren't memory, so their marks were
 * taken out. */
static void resize(struct balloon *balloon, const struct marks *marks, uint64_t words)
{
    balloon->ballooned_words = words;
    balloon->ballooned = words > 0 ? marks->set : NULL;
    balloon->deflating = words > 0 ? marks->deflating : NULL;
}

void marks_begin(struct marks *marks, uint64_t *set, bool holds)
{
    static uint64_t deflating[MOST_SET / WORD_BITS];
    marks->set = set;
    marks->deflating = holds ? deflating : NULL;
}

bool marks_follow(struct backend *backend, struct marks *marks, uint64_t end)
{
    if (end > MOST_SET)
        return false;
    clear_holes(backend, marks);
    note_memory(marks, &backend->memory);
    clear_holes(backend, marks);
    resize(&backend->balloon, marks, (end + WORD_BITS - 1) / WORD_BITS);
    return true;
}

void marks_regain(struct backend *backend, struct marks *marks, uint64_t words)
{
    note_memory(marks, &backend->memory);
    resize(&backend->balloon, marks, words);
    if (backend->balloon.deflating)
        memset(marks->deflating, 0, words * sizeof *marks->deflating);
    backend->ballooned = words > 0 ? (uint32_t)vb_count_ballooned(marks->set, words) : 0;
}
