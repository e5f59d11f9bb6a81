/* What the lender counts of its own over its life, for metrics: what took how long, and why guests
 * went. */
#ifndef MEASURES_H
#define MEASURES_H
#include "view.h"

/* Durations by their upper bounds: the last count is of those above all bounds. */
enum { DURATION_BOUNDS = 7 };
extern const double duration_bounds[DURATION_BOUNDS];
struct durations {
    uint64_t counts[DURATION_BOUNDS + 1];
    double sum; /* seconds */
};

/* It left; it was refused, since it broke a rule or found no room; the host removed it; its process
 * ended by itself. */
enum gone_reason { GONE_LEFT, GONE_REFUSED, GONE_REMOVED, GONE_DIED, GONE_REASONS };

struct measures {
    struct durations waits;        /* of guests that asked for memory, until they were granted it */
    uint64_t ungranted[WAIT_ENDS]; /* waits that ended otherwise */
    struct durations decisions,
        turns; /* a turn of the loop: from when something has come to the next wait */
    struct durations processor; /* the processor's time of each turn */
    double above;               /* seconds for which the guests held more than the budget */
    uint64_t gone[GONE_REASONS];
};

/* All that was measured. */
const struct measures *measures_see(void);
const char *gone_reason_word(enum gone_reason reason);

/* Something ended that took this many seconds. */
void measure_wait(enum wait_end how, double seconds);
void measure_decision(double seconds);
void measure_turn(double seconds, double processor);

/* The guests held more than the budget for this many seconds. */
void measure_above(double seconds);
void measure_gone(enum gone_reason reason);

#endif
