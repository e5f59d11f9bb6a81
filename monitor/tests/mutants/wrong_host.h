/* Which host it is of those that are wrong on purpose (wrong_host.c). */
#ifndef WRONG_HOST_H
#define WRONG_HOST_H
#include "../../backends/lender/places.h"

#include <stdlib.h>

enum {
    EVENLY = 1,
    NEIGHBOURS,
    NO_FLOOR,
    COUNTS_DEAD,
    OLD_FLOOR = 7,
    LOWERS_EARLY = 9,
    GRANTS_EARLY,
    NONE_AHEAD,
    READS_EARLY,
    GRANTS_MORE,
    WANTS_NOTHING,
    GRANTS_ALL,
    COUNTS_BEFORE,
    COUNTS_TWICE,
    NO_BUDGET,
    NEXT_PLACE,
    TELLS_NONE,
    OTHER_LAYOUT,
    NONE_PRESSED,
    PRESSED_FOR_GOOD,
    NO_TIERS,
    PRESSED_BY_BALLOON,
    ADMITS_ALL,
    LENDS_ALL,
    GRANTS_ONCE = 33,
    TELLS_ONCE,
    KEEPS_OVERDRAFT,
    KEEPS_FLOORS,
    FORGETS_DEFERRED,
    NO_WEIGHTS,
    LENDS_ONE_MORE,
    FORGETS_LOANS
};

static inline int wrong(void)
{
    const char *number = getenv("HOST_WRONG");
    return number ? atoi(number) : 0;
}

#endif
