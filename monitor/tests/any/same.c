/* What a call leaves, beside what the plain implementation leaves. */
#include "any.h"

uint64_t answers[VB_BAD_ARGUMENT + 1];

bool same(const VbDevice *one, const VbDevice *other)
{
    return one->settings.memory_end == other->settings.memory_end &&
           one->settings.offered == other->settings.offered &&
           one->settings.reserved_pages == other->settings.reserved_pages &&
           one->settings.needs_must_tell == other->settings.needs_must_tell &&
           one->settings.skips_bad_pages == other->settings.skips_bad_pages &&
           one->features == other->features && one->target == other->target &&
           one->actual == other->actual && one->poison == other->poison &&
           one->status == other->status && same_queue(&one->inflate, &other->inflate) &&
           same_queue(&one->deflate, &other->deflate) &&
           same_queue(&one->statistics, &other->statistics) &&
           same_queue(&one->hint, &other->hint) && same_queue(&one->report, &other->report) &&
           one->settings.discards_hints == other->settings.discards_hints &&
           one->round.shown == other->round.shown && one->round.last == other->round.last &&
           one->round.opened == other->round.opened;
}
