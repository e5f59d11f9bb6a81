/* What the parts of the plain lender have in common. */
#ifndef REFERENCE_SEATS_H
#define REFERENCE_SEATS_H
#include "reference.h"
#include "vb_host.h"

/* The pages that a report leaves in the balloon: not those of a deflate that was granted, and none
 * where it doesn't count. */
uint64_t stays_ballooned(const VbSeat *seat, const VbReport *report);

/* Whether a guest waits before another one that waits: by lines, then whether it is preferred, then
 * turns of those that aren't, then places; and whether it may be lent from the overdraft. */
bool waits_before(const VbSeat *one, const VbSeat *other);
bool may_overdraw(const VbHost *host, const VbSeat *seats, size_t count, size_t guest);

#endif
