/* The set of the pages in a guest's balloon, and that of a held deflate's pages, as its memory
 * comes and goes. */
#ifndef MARKS_H
#define MARKS_H
#include "../balloon/backend.h"

/* Pages from `first` to before `end`. */
struct span {
    uint64_t first, end;
};

struct marks {
    uint64_t *set;       /* the pages in its balloon, before page MOST_SET */
    uint64_t *deflating; /* those of the deflate that is held; NULL where none is ever held */
    struct span spans[MOST_REGIONS]; /* of its memory, from the lowest one on */
    unsigned span_count;
};

/* Takes the marks of pages out of a guest's set that weren't memory before, or aren't now, and
 * makes the set as large as memory that ends at this page; false where that is past MOST_SET. */
bool marks_follow(struct backend *backend, struct marks *marks, uint64_t end);

/* Makes the sets of a guest: `set`, which outlives its process, and where deflates are held one
 * that another process fills again. */
void marks_begin(struct marks *marks, uint64_t *set, bool holds);

/* A guest's set has this many words, which another process has filled; its memory is there again. A
 * deflate that was held is told again, and its set is empty until then. */
void marks_regain(struct backend *backend, struct marks *marks, uint64_t words);

#endif
