/* The least budget of a host's lender, in plain C. */
#include "reference.h"
#include "vb_host.h"

/* What a guest is lent in the end: with what it waits for, or once its balloon has what is wanted
 * there. */
static uint64_t final_loan(const VbSeat *seat)
{
    uint64_t all = (uint64_t)seat->pages + seat->outside, lent = vb_seat_lent(seat);
    uint64_t then = all > seat->wanted ? all - seat->wanted : 0;
    if (seat->held)
        return lent + vb_seat_asked(seat);
    return seat->uncounted || lent < then ? lent : then;
}

uint64_t vb_host_least_budget(const VbSeat *seats, size_t count)
{
    Sum pages = 0;
    for (size_t i = 0; i < count; i++)
        pages += final_loan(&seats[i]);
    return pages > UINT64_MAX ? UINT64_MAX : (uint64_t)pages;
}
