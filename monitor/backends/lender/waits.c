/* What a guest's process waits for, and how its waits end: by what the lender has answered to the
 * number of each. */
#include "measures.h"
#include "places.h"

/* For what a process waits by a report, and the number of that wait. */
static enum guest_wait wait_of(const struct lending_message *report, uint32_t *number)
{
    bool holds_answer = report->waits == WAIT_ROOM || report->waits == WAIT_RESET;
    *number = holds_answer ? report->wait : report->held_wait;
    if (holds_answer)
        return report->waits == WAIT_ROOM ? WAITS_FOR_ROOM : WAITS_FOR_RESET;
    return report->held_pages > 0 ? WAITS_FOR_DEFLATE : WAITS_FOR_NOTHING;
}

enum guest_wait seat_waits_for(const struct seat *seat)
{
    uint32_t number;
    return wait_of(&seat->report, &number);
}

static enum wait_end end_of_wait(const struct seat *seat)
{
    const VbSeat *its = place_of(seat);
    bool waits_for_room = seat_waits_for(seat) == WAITS_FOR_ROOM;
    bool has_room = its->granted > 0 && seat->report.wanted <= its->pages;
    if (waits_for_room ? has_room : its->granted == seat->exchange.asks)
        return WAS_GRANTED;
    return waits_for_room && seat->refused ? WAS_REFUSED : WAS_WITHDRAWN;
}

void seat_ends_wait(struct seat *seat)
{
    enum guest_wait what = seat_waits_for(seat);
    if (what == WAITS_FOR_NOTHING)
        return;
    double seconds = (double)(loop_now() - seat->waits_since) / 1000;
    seat->ended = (struct ended_wait){seat->ended.number + 1, what, end_of_wait(seat), seconds};
    measure_wait(seat->ended.how, seconds);
}

void seat_waits(struct seat *seat, const struct lending_message *report)
{
    uint32_t number, before;
    enum guest_wait now = wait_of(report, &number);
    enum guest_wait was = wait_of(&seat->report, &before);
    if (now == was && (now == WAITS_FOR_NOTHING || number == before))
        return;
    seat_ends_wait(seat);
    seat->waits_since = loop_now();
    seat->wait_named = false;
}
