/* Whether two seats say the same: the bytes of all their fields, which leave no gap. */
#include "seats.h"

#include <stddef.h>
#include <string.h>

uint32_t vb_seat_same(const VbSeat *seat, const VbSeat *other)
{
    return !memcmp(seat, other, offsetof(VbSeat, deferred) + sizeof seat->deferred);
}
