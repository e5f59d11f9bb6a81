/* The lender's step (vb_host.h) over the places of guests: what is passed on to it, and what comes
 * of that. */
#ifndef PLACES_H
#define PLACES_H
#include "host.h"

static inline uint32_t smaller(uint32_t one, uint32_t other)
{
    return one < other ? one : other;
}

static inline VbSeat *place_of(const struct seat *seat)
{
    return &seat->host->places[seat->place];
}

/* The place of memory that is added to it; zeros where none is. */
const VbSeat *added_place_of(const struct seat *seat);

/* The pages that its memory's files hold beyond its memory. */
static inline uint32_t pages_beyond(const struct seat *seat)
{
    uint32_t held = pages_held(seat);
    return held - smaller(held, place_of(seat)->pages);
}

/* ---- asks.c */

/* What a process says, by one of its reports, and what the library reads in that. */
VbMessage ask_message(const struct seat *seat, const struct lending_message *said);
VbReading ask_read(const struct seat *seat, const struct lending_message *said);

/* Notes what its last report asks for, and whether its last target is received. */
void ask_note(struct seat *seat);

/* ---- places.c */

/* Gives a seat a place that nobody has. */
void place_begin(struct seat *seat);

/* An earlier lender has left a guest of `pages` pages: all are lent to it until it reports. */
void place_reserves(struct seat *seat, uint32_t pages);

/* A later lender has its first report; it has reported; it is admitted, where nothing of it waits
 * for a grant; it has taken pages without a grant; its client is said to have gone, and it asks for
 * nothing, but keeps what it was lent; it has gone. */
void place_takes_over(struct seat *seat);
void place_hears(struct seat *seat);
void place_admits(struct seat *seat);
void place_uncounts(struct seat *seat);
void place_stays(struct seat *seat);
void place_leaves(struct seat *seat);

/* `pages` of it are wanted in its balloon, which the next step follows. */
void place_wants(struct seat *seat, uint32_t pages);

/* Something happens: the step, and what is sent by what comes of it, and of all that has happened
 * since the last one. places_settle() is such a step of which nothing else happens. */
void places_step(struct host *host, VbHostEvent event);
void places_settle(struct host *host);

/* What may be lent is the budget, once all guests of an earlier lender have reported. */
void places_follow_budget(struct host *host);

/* ---- relief.c */

/* Once nothing has moved for a while, the first that waits is granted from the overdraft, and on a
 * short host proceeds alone: it comes before all others of its line until it asks no more. Once the
 * first of those that restart or come has waited for as long as the host is patient, it lets others
 * pass, if there are any. */
void places_relieve(struct host *host);

/* ---- seats.c */

/* The pages of its memory that has room; those with what is outside of it; and its last target, 0
 * where it was sent none. */
uint32_t seat_pages(const struct seat *seat);
uint32_t seat_frames(const struct seat *seat);
uint32_t seat_told(const struct seat *seat);

/* The frames that are lent to it, and those that it waits for, also of memory that is added; and
 * what is lent to all together. */
uint32_t seat_lent(const struct seat *seat);
uint32_t seat_asked(const struct seat *seat);
uint64_t places_owed(const struct host *host);

/* Whether somebody waits. */
bool places_wait(const struct host *host);

/* ---- loans.c */

/* Frames that it holds above its loan. */
uint32_t loan_excess(const struct seat *seat);

/* Its last report shows fewer pages in its balloon than it was granted: it is named. It counts with
 * all that it has, unless the kernel has it within its limit. */
void loan_audit(struct seat *seat);

/* Names each guest that holds more than its loan and its overhead, whose balloon doesn't count any
 * longer; and each that waits in vain, once. */
void loans_audit(struct host *host);

#endif
