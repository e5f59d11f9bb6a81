#include "counters.h"

#include "balloon.h"

void counters_add(struct counters *counters, const struct balloon_result *result)
{
    counters->chains += result->chains;
    counters->pages += result->pages;
    counters->discarded += result->discarded;
    counters->waiting += result->waiting;
    counters->skipped += result->skipped;
    counters->in_holes += result->in_holes;
    counters->kept += result->kept;
    counters->marked += result->marked;
    counters->unmarked += result->unmarked;
}

uint64_t counters_taken(uint32_t before, uint32_t after, uint32_t target)
{
    uint32_t from = before < target ? before : target;
    return after < from ? from - after : 0;
}
