/* The way out where guests wait for each other, as the library says it (vb_host_relief). */
#include "places.h"

/* Events of one look: one each that its preference ends, that it lets others pass, that another is
 * preferred, and that this one is lent from the overdraft. */
enum { MOST_RELIEFS = 4 };

/* The next event that is due; of kind 0 where none is. */
static VbRelief relief_at(struct host *host, const VbLook *look)
{
    const VbSeat *seats = host->places;
    host->stand = vb_host_stand(seats, host->place_count, &host->stand, look->time);
    return vb_host_relief(&host->lends, seats, host->place_count, &host->stand, look);
}

void places_relieve(struct host *host)
{
    const VbLook look = {.time = (uint64_t)loop_now(),
                         .missing = host->missing,
                         .patience = host->patience,
                         .awaits = host_awaits(host)};
    for (int i = 0; i < MOST_RELIEFS; i++) {
        VbRelief relief = relief_at(host, &look);
        if (relief.kind == 0)
            return;
        places_step(host, (VbHostEvent){.kind = relief.kind, .guest = relief.guest});
    }
}
