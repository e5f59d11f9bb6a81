/* What a backend counts. Each counter has one name: in the struct, in the line `counters`, and in
 * the table of docs/LINUX.md, which says what it counts. */
#ifndef COUNTERS_H
#define COUNTERS_H
#include <stdint.h>

/* clang-format off */
#define COUNTERS(COUNT) \
    COUNT(messages) COUNT(kicks) COUNT(interrupts) COUNT(told) \
    COUNT(chains) COUNT(pages) COUNT(discarded) COUNT(waiting) COUNT(skipped) COUNT(in_holes) \
    COUNT(kept) COUNT(marked) COUNT(unmarked) \
    COUNT(inflated) COUNT(deflated) COUNT(reported) COUNT(reports) COUNT(statistics) COUNT(taken)
/* clang-format on */

#define COUNTER_FIELD(name) uint64_t name;

struct counters {
    COUNTERS(COUNTER_FIELD)
};

/* What it counts of free page hints, each with `hints_` before its name in that line. Of the guest
 * of a host there are none: these are in no message to a lender. */
#define HINT_COUNTERS(COUNT) COUNT(rounds) COUNT(pages) COUNT(late)

struct hint_counters {
    HINT_COUNTERS(COUNTER_FIELD)
};

struct balloon_result;

/* Counts what a result says. */
void counters_add(struct counters *counters, const struct balloon_result *result);

/* How many of the pages that left the balloon did so below its target: the guest took them back by
 * itself. */
uint64_t counters_taken(uint32_t before, uint32_t after, uint32_t target);

#endif
