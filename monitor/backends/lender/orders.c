/* What the lender says to a guest's process. Nothing waits: what finds no room is said again at the
 * next look. */
#include "places.h"

/* Sends an order; one that finds no room is counted. */
static void order(struct seat *seat, struct lending_message *message)
{
    if (seat_is_taken(seat) && !lending_send(seat->channel, message))
        seat->lost++;
}

void seat_look(struct seat *seat, bool asks)
{
    struct lending_message message = {
        .kind = ORDER_LOOK, .number = ++seat->host->looks_asked, .asks = asks};
    if (!seat_is_taken(seat))
        return;
    seat->number = message.number;
    if (seat->asked_at == 0)
        seat->asked_at = loop_now();
    order(seat, &message);
}

/* Whether its balloon is as it was told, by all that its last report says. */
static bool is_on_target(const struct seat *seat)
{
    const struct lending_message *report = &seat->report;
    uint32_t told = seat_told(seat);
    return report->target == told && report->ballooned == told && report->actual == told &&
           report->holds != HAS_STARTED_SMALL;
}

void seat_remind(struct seat *seat)
{
    struct lending_message message = {.kind = ORDER_REMIND};
    if (seat_is_ready(seat) && seat->silent <= SILENT_AFTER && !is_on_target(seat))
        order(seat, &message);
}

static void tell_target(struct seat *seat)
{
    struct lending_message message = {.kind = ORDER_TARGET, .target = seat_told(seat)};
    order(seat, &message);
}

void seat_tell(struct seat *seat)
{
    if (!seat_is_taken(seat))
        return;
    tell_target(seat);
    seat_look(seat, false);
    seat->exchange.sent = place_of(seat)->target_number;
    seat->exchange.sent_by = seat->number;
    seat->exchange.received = 0;
}

/* Whether it was sent no target, or has received the last one. */
static bool is_told(const struct seat *seat)
{
    return seat->exchange.sent == 0 || seat->exchange.received > 0;
}

void seat_look_again(struct seat *seat, bool asks)
{
    if (!is_told(seat))
        tell_target(seat);
    seat_look(seat, asks);
}

/* What was decided of it. */
static VbAim aim_of(const struct seat *seat)
{
    return (VbAim){.target = seat->target,
                   .strict = seat->holds,
                   .ready = seat_is_ready(seat),
                   .seconds = seat->host->step,
                   .frames = seat->host->frames};
}

/* Whether a strict guest is to get pages back that others give first. */
static bool one_gains(const struct host *host)
{
    for (unsigned i = 0; i < host->count; i++) {
        VbAim aim = aim_of(host->seats[i]);
        if (vb_seat_pace(place_of(host->seats[i]), &aim).gains)
            return true;
    }
    return false;
}

/* Has what was decided be wanted of it, as far as its target grows in this time: what all guests do
 * counts where it may grow by steps. */
static void want(struct seat *seat, int64_t milliseconds)
{
    const struct host *host = seat->host;
    VbAim aim = aim_of(seat);
    VbPace pace = vb_seat_pace(place_of(seat), &aim);
    if (pace.rises) {
        aim.passed = (uint64_t)milliseconds;
        aim.held_kib = host_held(host);
        aim.needed = places_wait(host) || one_gains(host);
        pace = vb_seat_pace(place_of(seat), &aim);
    }
    if (place_of(seat)->wanted != pace.now)
        place_wants(seat, pace.now);
}

void seat_set_target(struct seat *seat, uint32_t pages)
{
    seat->target = pages;
    want(seat, 0);
}

bool seat_is_behind(const struct seat *seat)
{
    VbAim aim = aim_of(seat);
    uint32_t all = vb_seat_pace(place_of(seat), &aim).all;
    return seat_is_taken(seat) && (place_of(seat)->wanted != all || !is_told(seat));
}

void seat_step(struct seat *seat, int64_t milliseconds)
{
    want(seat, milliseconds);
}

void seat_renew(struct seat *seat)
{
    struct lending_message message = {.kind = ORDER_RENEW};
    order(seat, &message);
}

void seat_leave(struct seat *seat)
{
    struct lending_message message = {.kind = ORDER_LEAVE};
    order(seat, &message);
}

/* It may go on, with these pages in its balloon. */
static void admit(struct seat *seat, uint32_t ballooned)
{
    struct lending_message message = {.kind = ORDER_ADMIT,
                                      .wait = seat->report.wait,
                                      .ballooned = ballooned,
                                      .target = seat_told(seat)};
    order(seat, &message);
}

/* Answers its process, which waits for room: there is none, or what it waits for has room, which a
 * later lender will know. */
static void answer_room(struct seat *seat)
{
    const struct lending_message *report = &seat->report;
    struct lending_message refuses = {.kind = ORDER_REFUSE, .wait = report->wait};
    if (place_of(seat)->granted > 0 && report->wanted <= seat_pages(seat)) {
        if (folder_keep_pages(seat) && limit_allows(seat))
            admit(seat, place_of(seat)->ballooned);
    } else if (seat->refused) {
        order(seat, &refuses);
    }
}

/* Grants what it asks for in this line: its deflate, or its reset. */
static void grant(struct seat *seat, uint32_t line)
{
    struct lending_message message = {.kind = ORDER_GRANT, .wait = seat->report.held_wait};
    if (line == VB_LINE_DEFLATES)
        order(seat, &message);
    else
        admit(seat, place_of(seat)->ballooned);
}

void seat_repeat(struct seat *seat)
{
    VbReading reading = ask_read(seat, &seat->report);
    if (seat->report.waits == WAIT_ROOM)
        answer_room(seat);
    if (reading.resets)
        admit(seat, seat->report.ballooned);
    if (seat->holds && vb_seat_due_grant(place_of(seat), &reading.report) && limit_allows(seat))
        grant(seat, reading.report.line);
}
