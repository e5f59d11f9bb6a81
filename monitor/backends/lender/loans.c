/* What is lent to guests, beside what they hold: who has taken pages unasked, and who waits in
 * vain. */
#include "places.h"

#include <inttypes.h>

enum { LONG_WAIT = 10000 }; /* milliseconds */

uint32_t loan_excess(const struct seat *seat)
{
    uint32_t held = pages_held(seat), lent = seat_lent(seat);
    return held - smaller(held, lent);
}

/* It has pages that nobody granted: it is named. It counts with all that it has, unless the kernel
 * has it within its limit. */
static void name_taker(struct seat *seat, uint32_t pages, bool is_within)
{
    if (seat->cooperates || !is_within)
        complain("has taken %" PRIu32 " pages unasked: %s", pages,
                 is_within ? "its limit stays" : "all its memory counts as lent from now on");
    seat->cooperates = false;
    if (!is_within)
        place_uncounts(seat);
}

void loan_audit(struct seat *seat)
{
    uint32_t taken = ask_read(seat, &seat->report).taken;
    if (taken > 0)
        name_taker(seat, taken, limit_holds(seat));
}

/* Whether a guest holds pages that it gave, whatever its driver says, and whether it has one: more
 * than is lent to it, and than is beside. */
static bool holds_too_much(const struct seat *seat)
{
    return seat_pages(seat) > 0 && seat_reports(seat) && loan_excess(seat) > seat->terms.overhead;
}

/* Whether it has waited for long, while the guests can't give what is missing. */
static bool waits_in_vain(const struct seat *seat)
{
    bool is_long =
        seat_waits_for(seat) != WAITS_FOR_NOTHING && loop_now() - seat->waits_since >= LONG_WAIT;
    return is_long && seat->host->missing > 0 && seat_asked(seat) > 0;
}

/* It waits in vain: it is named, once for each wait. */
static void name_wait(struct seat *seat)
{
    if (seat->wait_named)
        return;
    seat->wait_named = true;
    complain("has waited %d seconds for %" PRIu32
             " pages (%s): all guests together can't give %" PRIu64 " of those that are missing",
             LONG_WAIT / 1000, seat_asked(seat), guest_wait_word(seat_waits_for(seat)),
             seat->host->missing);
}

void loans_audit(struct host *host)
{
    for (unsigned i = 0; i < host->count; i++) {
        struct seat *seat = host->seats[i];
        speaker_begins(&seat->speaker);
        if (holds_too_much(seat))
            name_taker(seat, loan_excess(seat) - seat->terms.overhead, false);
        if (waits_in_vain(seat))
            name_wait(seat);
        speaker_ends();
    }
}
