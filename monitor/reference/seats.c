/* A host's lender, in plain C: the rules as vb_host.h says them, one seat at a time. */
#include "seats.h"

static uint64_t least(uint64_t one, uint64_t other)
{
    return one < other ? one : other;
}

static uint64_t greatest(uint64_t one, uint64_t other)
{
    return one > other ? one : other;
}

/* What is left of a number, and none where more is taken away. */
static uint64_t without(uint64_t number, uint64_t taken)
{
    return number - least(number, taken);
}

/* ---- one seat */

/* The pages of its balloon that aren't lent to it. */
static uint64_t reclaimed(const VbSeat *seat)
{
    return least(seat->ballooned, seat->least_target);
}

uint64_t vb_seat_lent(const VbSeat *seat)
{
    return without((uint64_t)seat->pages + seat->outside, reclaimed(seat));
}

uint32_t vb_seat_waits(const VbSeat *seat)
{
    return seat->held != 0;
}

static VbSeat granted(VbSeat seat)
{
    seat.ballooned = (uint32_t)without(seat.ballooned, seat.held);
    seat.granted = seat.deflates;
    seat.held = seat.deferred = 0;
    seat.turn = 0;
    return seat;
}

uint32_t vb_seat_asked(const VbSeat *seat)
{
    VbSeat then = granted(*seat);
    return seat->held ? (uint32_t)without(vb_seat_lent(&then), vb_seat_lent(seat)) : 0;
}

/* Whether a deflate waits that lends nothing more. */
static bool is_covered(const VbSeat *seat)
{
    return seat->held && vb_seat_asked(seat) == 0;
}

uint32_t vb_seat_due_target(const VbSeat *seat, const VbReport *report)
{
    return report->target_number != seat->target_number;
}

uint32_t vb_seat_due_grant(const VbSeat *seat, const VbReport *report)
{
    return report->held && report->deflates == seat->granted;
}

/* ---- a report */

/* The seat with what a report says of memory, where these pages are in the balloon: no page but of
 * what was taken away has left the balloon, or is outside. */
static VbSeat remembered(VbSeat seat, uint64_t ballooned, const VbReport *report)
{
    uint64_t taken = without(report->removed, seat.removed), left = without(seat.pages, taken);
    uint64_t fallen = without(seat.ballooned, ballooned);
    if (fallen > taken || left + report->outside + fallen > (uint64_t)seat.pages + seat.outside)
        return seat;
    seat.pages = (uint32_t)left;
    seat.ballooned = (uint32_t)ballooned;
    seat.outside = report->outside;
    seat.removed = report->removed;
    return seat;
}

/* The seat with what a report says of memory, balloon and deflate. Where that deflate was granted,
 * its pages have left the balloon. */
static VbSeat counted(VbSeat seat, const VbReport *report)
{
    bool was_granted = report->deflates == seat.granted;
    seat = remembered(seat, stays_ballooned(&seat, report), report);
    seat.held = was_granted ? 0 : report->held;
    seat.line = report->line;
    seat.deflates = report->deflates;
    return seat;
}

static VbSeat queued(VbSeat seat, uint64_t turn)
{
    seat.turn = seat.held ? turn : 0, seat.deferred = 0;
    return seat;
}

/* In which line it waits; one that lets others pass in the last one. */
static uint64_t waiting_line(const VbSeat *seat)
{
    return seat->deferred ? VB_LINE_ARRIVALS : least(seat->line, VB_LINE_ARRIVALS);
}

static VbSeat deferred(VbSeat seat, uint64_t turn)
{
    if (seat.held && waiting_line(&seat) != VB_LINE_DEFLATES)
        seat.turn = turn, seat.deferred = 1;
    return seat;
}

static VbSeat heard(VbSeat seat, const VbReport *report, uint64_t turn)
{
    if (report->deflates < seat.granted || report->removed < seat.removed)
        return seat;
    VbSeat now = counted(seat, report);
    if (is_covered(&now))
        now = granted(now);
    if (report->target_number == now.target_number && report->read_target == now.target)
        now.least_target = (uint32_t)greatest(now.least_target, now.target);
    bool same = seat.held && now.held && seat.deflates == now.deflates && seat.line == now.line;
    return same ? now : queued(now, turn);
}

/* ---- a target */

/* The target that is possible with this room. */
static VbSeat targeted(VbSeat seat, uint64_t room)
{
    uint64_t most = seat.held || seat.granted == 0 ? 0 : room;
    uint32_t target = (uint32_t)greatest(seat.wanted, without(reclaimed(&seat), most));
    if (seat.target_number == UINT64_MAX)
        return seat;
    seat.target_number += target != seat.target;
    seat.target = target;
    seat.least_target = (uint32_t)least(seat.least_target, target);
    return seat;
}

/* Whether it waits, is uncounted, or has in its balloon what its target says. */
static bool is_done(const VbSeat *seat)
{
    return seat->held || seat->uncounted || seat->target <= seat->ballooned;
}

/* ---- arrivals */

static VbSeat arrived(uint32_t pages, uint32_t ballooned)
{
    return (VbSeat){.pages = pages,
                    .ballooned = pages,
                    .least_target = pages,
                    .target = pages,
                    .wanted = ballooned};
}

/* By the first report to a later lender: each deflate before the one that is held was granted. */
static VbSeat taken_over(uint32_t pages, const VbReport *report)
{
    return (VbSeat){
        .pages = pages,
        .ballooned = report->ballooned,
        .least_target = (uint32_t)least(report->target, report->read_target),
        .target = report->target,
        .wanted = report->target,
        .held = report->held,
        .line = report->line,
        .outside = report->outside,
        .target_number = report->target_number,
        .deflates = report->deflates,
        .granted = report->held ? without(report->deflates, 1) : report->deflates,
        .removed = report->removed,
    };
}

/* ---- all seats */

static Sum lent_to_all(const VbSeat *seats, size_t count)
{
    Sum pages = 0;
    for (size_t i = 0; i < count; i++)
        pages += vb_seat_lent(&seats[i]);
    return pages;
}

uint64_t vb_host_owed(const VbSeat *seats, size_t count)
{
    Sum pages = lent_to_all(seats, count);
    return pages > UINT64_MAX ? UINT64_MAX : (uint64_t)pages;
}

uint32_t vb_host_room(const VbHost *host, const VbSeat *seats, size_t count)
{
    Sum pages = lent_to_all(seats, count);
    for (size_t i = 0; i < count; i++)
        pages += vb_seat_asked(&seats[i]);
    return pages < host->frames ? host->frames - (uint32_t)pages : 0;
}

/* One more than the last turn of all; the greatest number follows itself. */
static uint64_t next_turn(const VbSeat *seats, size_t count)
{
    uint64_t last = 0;
    for (size_t i = 0; i < count; i++)
        last = greatest(last, seats[i].turn);
    return last == UINT64_MAX ? last : last + 1;
}

bool waits_before(const VbSeat *one, const VbSeat *other)
{
    uint64_t line = waiting_line(one), next = waiting_line(other);
    if (line != next)
        return line < next;
    if (!one->preferred != !other->preferred)
        return one->preferred;
    return one->preferred || one->turn == other->turn ? one < other : one->turn < other->turn;
}

size_t vb_host_first(const VbSeat *seats, size_t count)
{
    size_t first = SIZE_MAX;
    for (size_t i = 0; i < count; i++)
        if (seats[i].held && (first == SIZE_MAX || waits_before(&seats[i], &seats[first])))
            first = i;
    return first;
}

/* ---- grants */

/* Whether a guest waits first, and there are frames for what it waits for. */
static bool may_go(const VbSeat *seats, size_t count, size_t guest, uint64_t frames)
{
    Sum pages = lent_to_all(seats, count) + vb_seat_asked(&seats[guest]);
    return vb_host_first(seats, count) == guest && pages <= frames;
}

bool may_overdraw(const VbHost *host, const VbSeat *seats, size_t count, size_t guest)
{
    for (size_t i = 0; i < count; i++)
        if (!is_done(&seats[i]))
            return false;
    return may_go(seats, count, guest, (uint64_t)host->frames + host->overdraft);
}

/* Grants the next guest; whether there is one. */
static bool grant_next(const VbHost *host, VbSeat *seats, size_t count)
{
    for (size_t i = 0; i < count; i++)
        if (is_covered(&seats[i])) {
            seats[i] = granted(seats[i]);
            return true;
        }
    size_t first = vb_host_first(seats, count);
    if (first == SIZE_MAX || !may_go(seats, count, first, host->frames))
        return false;
    seats[first] = granted(seats[first]);
    return true;
}

static void target_all(const VbHost *host, VbSeat *seats, size_t count)
{
    uint64_t room = vb_host_room(host, seats, count);
    for (size_t i = 0; i < count; i++) {
        uint64_t before = vb_seat_lent(&seats[i]);
        seats[i] = targeted(seats[i], room);
        room = without(room, without(vb_seat_lent(&seats[i]), before));
    }
}

/* ---- events */

static void join(VbSeat *seats, size_t count, size_t guest, size_t added)
{
    if (added >= count || added == guest || reclaimed(&seats[added]) || seats[added].outside)
        return;
    if ((uint64_t)seats[guest].pages + seats[added].pages > UINT32_MAX)
        return;
    seats[guest].pages += seats[added].pages;
    seats[added] = arrived(0, 0);
}

static void prefer(VbSeat *seats, size_t count, size_t guest)
{
    for (size_t i = 0; i < count; i++)
        seats[i].preferred = i == guest;
}

/* What an event makes of the guest at its place. */
static VbSeat seat_then(const VbHost *host, const VbSeat *seats, size_t count,
                        const VbHostEvent *event)
{
    VbSeat seat = seats[event->guest];
    bool may = event->kind == VB_GRANTS &&
               (is_covered(&seat) || may_go(seats, count, event->guest, host->frames));
    switch (event->kind) {
    case VB_HEARS:
        return heard(seat, &event->report, next_turn(seats, count));
    case VB_GRANTS:
        return may ? granted(seat) : seat;
    case VB_OVERDRAWS:
        return may_overdraw(host, seats, count, event->guest) ? granted(seat) : seat;
    case VB_WANTS:
        seat.wanted = event->pages;
        return seat;
    case VB_TARGETS:
        return targeted(seat, vb_host_room(host, seats, count));
    case VB_ARRIVES:
        return arrived(event->pages, event->ballooned);
    case VB_TAKES_OVER:
        return queued(taken_over(event->pages, &event->report), next_turn(seats, count));
    case VB_UNCOUNTS:
        seat.ballooned = seat.least_target = 0;
        seat.uncounted = 1;
        return seat;
    case VB_DEFERS:
        return deferred(seat, next_turn(seats, count));
    default:
        return seat;
    }
}

uint32_t vb_host_happen(VbHost *host, VbSeat *seats, size_t count, const VbHostEvent *event)
{
    if (event->kind < VB_HEARS || event->kind > VB_DEFERS)
        return VB_BAD_ARGUMENT;
    if (event->kind == VB_BUDGET)
        host->frames = event->frames;
    else if (event->kind == VB_PREFERS)
        prefer(seats, count, event->guest);
    else if (event->guest < count && event->kind == VB_JOINS)
        join(seats, count, event->guest, event->added);
    else if (event->guest < count)
        seats[event->guest] = seat_then(host, seats, count, event);
    return VB_OK;
}

uint32_t vb_host_step(VbHost *host, VbSeat *seats, size_t count, const VbHostEvent *event)
{
    if (vb_host_happen(host, seats, count, event) != VB_OK)
        return VB_BAD_ARGUMENT;
    while (grant_next(host, seats, count))
        ;
    target_all(host, seats, count);
    return VB_OK;
}
