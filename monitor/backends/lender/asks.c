/* What a guest's process says, as the library reads it. */
#include "places.h"

_Static_assert((int)WAIT_NOTHING == VB_ASK_NOTHING && (int)WAIT_ROOM == VB_ASK_ROOM &&
                   (int)WAIT_RESET == VB_ASK_RESET,
               "waits of a channel are those of the library");
_Static_assert((int)HOLDS_NOTHING == VB_HOLDS_NOTHING && (int)HOLDS_DEFLATES == VB_HOLDS_DEFLATES &&
                   (int)MAY_START_SMALL == VB_MAY_START_SMALL &&
                   (int)HAS_STARTED_SMALL == VB_HAS_STARTED_SMALL,
               "so is what a process holds back");

VbMessage ask_message(const struct seat *seat, const struct lending_message *said)
{
    return (VbMessage){.pages = said->pages,
                       .wanted = seat->refused ? 0 : said->wanted,
                       .ballooned = said->ballooned,
                       .target = said->target,
                       .read = said->obeyed,
                       .held = said->held_pages,
                       .deflate = said->held_wait,
                       .waits = said->waits,
                       .wait = said->wait,
                       .holds = said->holds,
                       .outside = lending_outside(said),
                       .files = (uint32_t)(said->held_kib / PAGE_KIB),
                       .start = seat->terms.start,
                       .most = seat->terms.most,
                       .limited = seat->terms.limit.kind != LIMIT_NONE};
}

VbReading ask_read(const struct seat *seat, const struct lending_message *said)
{
    VbMessage message = ask_message(seat, said);
    return vb_seat_read(place_of(seat), &seat->exchange, &message, (uint64_t)loop_now());
}

void ask_note(struct seat *seat)
{
    VbMessage message = ask_message(seat, &seat->report);
    uint64_t asks = seat->exchange.asks;
    seat->exchange = vb_seat_note(place_of(seat), &seat->exchange, &message, (uint64_t)loop_now());
    seat->host->news |= seat->exchange.asks != asks;
}
