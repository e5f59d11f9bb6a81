/* The bench's side that is served by balloon.h. */
#include "bench.h"

static void told(void *context, uint32_t kind, const VbRun *runs, uint32_t count)
{
    (void)context, (void)kind;
    bench_told(runs, count);
}

void shim_discards(struct guest *guest, bool discards)
{
    guest->balloon.on_pages = told;
    guest->balloon.keeps_pages = !discards;
}

uint64_t shim_notify(struct guest *guest, uint32_t kind)
{
    struct balloon_result result = balloon_notify(&guest->balloon, kind);
    interrupts += result.interrupts != 0;
    return result.pages;
}
