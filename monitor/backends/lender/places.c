/* The lender's step over the places of guests: each event, and what is sent by what comes of it. */
#include "places.h"

#include <stdlib.h>

/* The seat of this number, of those that are leaving after all others; NULL after these. */
static struct seat *seat_at(const struct host *host, unsigned number)
{
    if (number < host->count)
        return host->seats[number];
    number -= host->count;
    return number < host->leaving_count ? host->leaving[number] : NULL;
}

/* A place that nobody has: there are enough for all seats and their added memory. */
static size_t free_place(struct host *host)
{
    bool taken[MOST_PLACES + 1] = {false};
    const struct seat *seat;
    size_t place = 0;
    for (unsigned i = 0; (seat = seat_at(host, i)); i++) {
        taken[seat->place] = true;
        taken[seat->added == NO_PLACE ? MOST_PLACES : seat->added] = true;
    }
    while (taken[place])
        place++;
    host->place_count = place < host->place_count ? host->place_count : place + 1;
    return place;
}

void place_begin(struct seat *seat)
{
    seat->place = free_place(seat->host);
    seat->added = NO_PLACE;
}

/* ---- a step */

/* What it has asked for is granted. */
static void note_grant(struct seat *seat)
{
    struct host *host = seat->host;
    host->counters.admitted += seat->granted_asks == 0;
    host->counters.grants++;
    seat->granted_asks = place_of(seat)->granted;
    seat_repeat(seat);
    host->news = true;
}

/* Whether all was noted and sent that steps have made of it. */
static bool is_followed(const struct seat *seat)
{
    const VbSeat *its = place_of(seat);
    bool is_noted = !seat->holds || its->granted == seat->granted_asks;
    return is_noted && seat->added == NO_PLACE && its->target_number == seat->exchange.sent;
}

/* Notes and sends what a step has made of a guest. */
static void follow_step(struct seat *seat)
{
    const VbSeat *its = place_of(seat);
    uint32_t lent = seat_lent(seat), before = seat->lent;
    seat->lent = lent;
    if (seat->holds && lent > before)
        seat->granted += lent - before;
    if (seat->holds && its->granted != seat->granted_asks)
        note_grant(seat);
    if (its->target_number != seat->exchange.sent)
        seat_tell(seat);
}

static void join(struct seat *seat);

static void expect_done(uint32_t code, const VbHostEvent *event)
{
    if (code == VB_OK)
        return;
    complain("the lender's step refuses event %u: %u", event->kind, code);
    abort();
}

/* What happens is followed by the next step. */
static void happen(struct host *host, VbHostEvent event)
{
    expect_done(vb_host_happen(&host->lends, host->places, host->place_count, &event), &event);
    host->unsettled = true;
}

void places_step(struct host *host, VbHostEvent event)
{
    struct seat *seat;
    bool all = host->unsettled;
    host->unsettled = false;
    expect_done(vb_host_step(&host->lends, host->places, host->place_count, &event), &event);
    for (unsigned i = 0; (seat = seat_at(host, i)); i++)
        if (all || seat->place == event.guest || !is_followed(seat))
            follow_step(seat);
    for (unsigned i = 0; (seat = seat_at(host, i)); i++)
        if (seat->added != NO_PLACE)
            join(seat);
}

void places_settle(struct host *host)
{
    if (host->unsettled)
        places_step(host, (VbHostEvent){.kind = VB_WANTS, .guest = host->place_count});
}

/* Whether a step by what it says would change anything: where none is due, none does that changes
 * nothing at its place (`SettledStays` of vb_host). Most reports say what is known already. */
static bool is_news(const struct seat *seat, VbHostEvent event)
{
    const struct host *host = seat->host;
    VbHost lends = host->lends;
    VbSeat alone = *place_of(seat);
    event.guest = 0;
    expect_done(vb_host_happen(&lends, &alone, 1, &event), &event);
    return host->unsettled || !is_followed(seat) || !vb_seat_same(&alone, place_of(seat));
}

/* Nobody has any memory there any longer. */
static void clear(struct host *host, size_t place)
{
    places_step(host, (VbHostEvent){.kind = VB_ARRIVES, .guest = place});
}

void places_follow_budget(struct host *host)
{
    uint32_t frames = host_awaits(host) ? 0 : host->frames;
    if (frames != host->lends.frames)
        places_step(host, (VbHostEvent){.kind = VB_BUDGET, .frames = frames});
}

/* ---- memory that is added to a guest at work */

static void drop_added(struct seat *seat)
{
    if (seat->added == NO_PLACE)
        return;
    clear(seat->host, seat->added);
    seat->added = NO_PLACE;
}

/* Memory that was let in joins its guest. */
static void join(struct seat *seat)
{
    struct host *host = seat->host;
    size_t added = seat->added;
    if (host->places[added].granted == 0)
        return;
    host->counters.grants++;
    places_step(host, (VbHostEvent){.kind = VB_JOINS, .guest = seat->place, .added = added});
    if (host->places[added].pages > 0)
        complain("its added memory of %u pages can't join it", host->places[added].pages);
    drop_added(seat);
    seat_repeat(seat);
    host_changed(host, BY_GUESTS);
}

/* Added memory is a guest of its own, which waits for all its pages. */
static void hear_of_added(struct seat *seat, uint32_t pages)
{
    if (pages == 0) {
        drop_added(seat);
        return;
    }
    if (seat->added == NO_PLACE)
        seat->added = free_place(seat->host);
    VbReport report = {.ballooned = pages, .held = pages, .line = VB_LINE_ARRIVALS, .deflates = 1};
    if (seat->host->places[seat->added].pages != pages) {
        places_step(seat->host,
                    (VbHostEvent){.kind = VB_ARRIVES, .guest = seat->added, .pages = pages});
        host_changed(seat->host, BY_GUESTS);
    }
    places_step(seat->host,
                (VbHostEvent){.kind = VB_HEARS, .guest = seat->added, .report = report});
}

/* Pages that were outside of its memory's slots are in them once more: they are lent already, and
 * join it whether or not there is room. */
static void take_back(struct seat *seat, uint32_t pages)
{
    struct host *host = seat->host;
    if (pages == 0)
        return;
    size_t place = free_place(host);
    VbReport all = {.deflates = 1};
    places_step(
        host, (VbHostEvent){.kind = VB_TAKES_OVER, .guest = place, .pages = pages, .report = all});
    places_step(host, (VbHostEvent){.kind = VB_JOINS, .guest = seat->place, .added = place});
}

/* ---- a guest */

/* It has reported. */
static void hear(struct seat *seat, VbReport report)
{
    VbHostEvent event = {.kind = VB_HEARS, .guest = seat->place, .report = report};
    if (is_news(seat, event))
        places_step(seat->host, event);
}

/* A guest that isn't let in yet. */
static void hear_newcomer(struct seat *seat)
{
    VbReading reading = ask_read(seat, &seat->report);
    if (place_of(seat)->pages != reading.wants || place_of(seat)->wanted != reading.without)
        places_step(seat->host, (VbHostEvent){.kind = VB_ARRIVES,
                                              .guest = seat->place,
                                              .pages = reading.wants,
                                              .ballooned = reading.without});
    if (reading.wants > 0)
        hear(seat, ask_read(seat, &seat->report).report);
}

/* Whether memory that is added to it has its place in line, or may have one now. */
static bool may_add(const struct seat *seat)
{
    return seat->added != NO_PLACE || seat_has_paid(seat) <= loop_now();
}

static VbHostEvent taking_over(const struct seat *seat, uint32_t pages, VbReport report)
{
    return (VbHostEvent){
        .kind = VB_TAKES_OVER, .guest = seat->place, .pages = pages, .report = report};
}

static void take_over(struct seat *seat, uint32_t pages, VbReport report)
{
    places_step(seat->host, taking_over(seat, pages, report));
}

/* A guest whose process holds nothing back: it has what its report says, and any target at once. */
static void follow(struct seat *seat, uint32_t pages, uint32_t target)
{
    VbMessage message = ask_message(seat, &seat->report);
    bool is_uncounted = place_of(seat)->uncounted;
    VbHostEvent event =
        taking_over(seat, pages, vb_seat_follow(place_of(seat), &message, pages, target));
    if (!is_news(seat, event))
        return;
    happen(seat->host, event);
    if (is_uncounted)
        happen(seat->host, (VbHostEvent){.kind = VB_UNCOUNTS, .guest = seat->place});
}

void place_hears(struct seat *seat)
{
    const VbSeat *its = place_of(seat);
    bool waits = seat->report.waits == WAIT_ROOM;
    VbReading reading = ask_read(seat, &seat->report);
    if (!seat->holds) {
        follow(seat, waits ? its->pages + reading.joins : seat->report.pages, its->wanted);
        places_settle(seat->host);
    } else if (its->granted == 0) {
        hear_newcomer(seat);
    } else {
        take_back(seat, reading.joins);
        hear(seat, reading.report);
        hear_of_added(seat, may_add(seat) ? reading.wants : 0);
    }
}

void place_admits(struct seat *seat)
{
    follow(seat, seat->report.wanted, place_of(seat)->wanted);
    places_settle(seat->host);
}

void place_reserves(struct seat *seat, uint32_t pages)
{
    take_over(seat, pages, (VbReport){.deflates = 1});
}

void place_takes_over(struct seat *seat)
{
    const struct lending_message *message = &seat->report;
    if (message->pages == 0) {
        clear(seat->host, seat->place);
        return;
    }
    VbReport report = {.ballooned = message->ballooned,
                       .target = message->target,
                       .read_target = message->obeyed > 0 ? message->obeyed - 1 : message->target,
                       .outside = lending_outside(message),
                       .target_number = 1,
                       .deflates = 1};
    seat->exchange.asks = seat->exchange.sent = seat->granted_asks = 1;
    take_over(seat, message->pages, report);
    seat->granted = 0;
    host_changed(seat->host, BY_GUESTS);
}

/* What it holds beyond its memory is a loan to it; not where the kernel is to limit it: its limit
 * follows the loan, and stays below what nobody has granted. */
static void lend_beyond(struct seat *seat)
{
    const VbSeat *its = place_of(seat);
    uint32_t beyond = pages_beyond(seat);
    if (beyond > its->outside && seat->terms.limit.kind == LIMIT_NONE)
        take_over(seat, its->pages,
                  (VbReport){.target = its->target,
                             .read_target = its->target,
                             .held = its->held,
                             .line = its->line,
                             .outside = beyond,
                             .target_number = its->target_number,
                             .deflates = its->held > 0 ? its->deflates : its->granted,
                             .removed = its->removed});
}

void place_uncounts(struct seat *seat)
{
    uint64_t granted = seat->granted;
    drop_added(seat);
    if (place_of(seat)->granted > 0) {
        lend_beyond(seat);
        places_step(seat->host, (VbHostEvent){.kind = VB_UNCOUNTS, .guest = seat->place});
    }
    seat->granted = granted;
    host_changed(seat->host, BY_GUESTS);
}

void place_stays(struct seat *seat)
{
    uint32_t lent = seat_lent(seat);
    if (lent == 0) {
        place_leaves(seat);
        return;
    }
    drop_added(seat);
    take_over(seat, lent, (VbReport){.deflates = 1});
}

void place_leaves(struct seat *seat)
{
    drop_added(seat);
    clear(seat->host, seat->place);
}

void place_wants(struct seat *seat, uint32_t pages)
{
    const VbSeat *its = place_of(seat);
    if (!seat->holds)
        follow(seat, its->pages, pages);
    else
        happen(seat->host, (VbHostEvent){.kind = VB_WANTS, .guest = seat->place, .pages = pages});
}
