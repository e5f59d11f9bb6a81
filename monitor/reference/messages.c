/* What a process's message says, in plain C: of the balloon, of memory, and of what it asks for. */
#include "seats.h"

enum { SURELY_READ = 3000 };

/* All that an answer depends on. */
struct told {
    const VbSeat *seat;
    const VbExchange *exchange;
    const VbMessage *message;
    uint64_t now;
};

/* ---- memory, by a report */

uint64_t stays_ballooned(const VbSeat *seat, const VbReport *report)
{
    bool was_granted = report->deflates == seat->granted;
    Sum stays = beyond(report->ballooned, was_granted ? report->held : 0);
    return seat->uncounted ? 0 : (uint64_t)stays;
}

/* Each page that left the balloon was one of memory that was taken away. */
static uint32_t taken_by(const VbSeat *seat, const VbReport *report)
{
    Sum with_memory = beyond(report->removed, seat->removed);
    return (uint32_t)beyond(seat->ballooned, stays_ballooned(seat, report) + with_memory);
}

/* Nothing that left the balloon has a frame. */
static uint32_t outside_by(const VbSeat *seat, const VbReport *report)
{
    Sum taken = less(beyond(report->removed, seat->removed), seat->pages);
    Sum left = beyond(seat->ballooned, stays_ballooned(seat, report));
    return (uint32_t)less(report->outside, beyond(seat->outside + taken, left));
}

/* ---- a guest that has less than all its pages */

static bool is_newcomer(const VbMessage *message)
{
    return message->waits == VB_ASK_ROOM && !message->pages;
}

static Sum stays_away(const VbMessage *message, uint32_t pages)
{
    bool may = message->limited && message->holds != VB_HOLDS_NOTHING &&
               message->holds != VB_HOLDS_DEFLATES;
    return may ? beyond(pages, less(message->start, message->most)) : 0;
}

/* What came in a strict guest's balloon, where any did, but for one page. */
static Sum came_without(const VbMessage *message, uint32_t pages)
{
    bool may = is_newcomer(message) && message->holds != VB_HOLDS_NOTHING;
    Sum brought = may ? less(message->ballooned, beyond(pages, 1)) : 0;
    return brought ? brought : stays_away(message, pages);
}

static Sum reset_takes(const struct told *told)
{
    return beyond(told->message->ballooned, stays_away(told->message, told->seat->pages));
}

/* ---- what it asks for */

struct ask {
    uint32_t what, number, line;
    Sum pages;
};

static struct ask ask_by(const struct told *told)
{
    const VbMessage *message = told->message;
    const VbSeat *seat = told->seat;
    const VbExchange *exchange = told->exchange;
    struct ask deflate = {VB_ASK_DEFLATE, message->deflate, VB_LINE_DEFLATES, message->held};
    bool is_last = exchange->ask == VB_ASK_DEFLATE && exchange->asked == message->deflate;
    bool is_granted = message->held && is_last && exchange->asks == seat->granted;
    if (message->waits == VB_ASK_RESET && reset_takes(told) && !is_granted)
        return (struct ask){VB_ASK_RESET, message->wait, VB_LINE_RESETS, reset_takes(told)};
    if (message->waits == VB_ASK_ROOM && !seat->granted && !is_granted)
        return (struct ask){VB_ASK_ROOM, message->wait, VB_LINE_ARRIVALS,
                            beyond(seat->pages, came_without(message, seat->pages))};
    return message->held ? deflate : (struct ask){0};
}

/* ---- its target */

static bool has_received(const struct told *told)
{
    const VbExchange *exchange = told->exchange;
    return told->message->target == told->seat->target &&
           exchange->sent == told->seat->target_number && exchange->obeyed >= exchange->sent_by;
}

/* Any number but this one. */
static uint64_t not_this(uint64_t number)
{
    return number ? number - 1 : 1;
}

static uint64_t has_read(const struct told *told)
{
    uint64_t since = told->exchange->received, read = told->message->read;
    bool surely = since && beyond(told->now, since) >= SURELY_READ;
    if (read)
        return read - 1;
    return surely ? told->seat->target : not_this(told->seat->target);
}

/* ---- pages outside of slots */

static Sum come_back(const struct told *told)
{
    return less(beyond(told->message->pages, told->seat->pages),
                beyond(told->seat->outside, told->message->outside));
}

static Sum has_outside(const struct told *told)
{
    Sum back = come_back(told), inside = told->seat->pages + back;
    Sum kept = less(beyond(told->seat->outside, back), beyond(told->message->files, inside));
    return more(told->message->outside, told->seat->uncounted ? kept : 0);
}

/* ---- all of it */

static VbReport report_by(const struct told *told)
{
    const VbMessage *message = told->message;
    const VbSeat *seat = told->seat;
    struct ask ask = ask_by(told);
    bool waits = message->waits == VB_ASK_ROOM;
    Sum removed = seat->removed + (waits ? 0 : beyond(seat->pages, message->pages));
    uint64_t number = seat->target_number;
    return (VbReport){
        .ballooned = is_newcomer(message) ? seat->ballooned : message->ballooned,
        .target = message->target,
        .read_target = (uint32_t)has_read(told),
        .held = (uint32_t)ask.pages,
        .line = ask.line,
        .outside = (uint32_t)has_outside(told),
        .target_number = has_received(told) ? number : not_this(number),
        .deflates = told->exchange->asks,
        .removed = (uint64_t)less(removed, UINT64_MAX),
    };
}

VbReading vb_seat_read(const VbSeat *seat, const VbExchange *exchange, const VbMessage *message,
                       uint64_t now)
{
    struct told told = {seat, exchange, message, now};
    VbReading reading = {.report = report_by(&told)};
    Sum back = come_back(&told), has = seat->granted ? seat->pages : 0;
    Sum wanted = message->waits == VB_ASK_ROOM ? message->wanted : 0;
    reading.taken = message->holds ? taken_by(seat, &reading.report) : 0;
    reading.joins = reading.taken ? 0 : (uint32_t)back;
    reading.ungranted = (uint32_t)beyond(message->pages, has + back);
    reading.brings = (uint32_t)beyond(wanted, has + back);
    reading.wants = (uint32_t)beyond(wanted, has + reading.joins);
    reading.without = (uint32_t)came_without(message, message->wanted);
    reading.small = message->holds == VB_HAS_STARTED_SMALL ||
                    (is_newcomer(message) && seat->granted && seat->ballooned);
    reading.resets = message->waits == VB_ASK_RESET && !reset_takes(&told);
    reading.report.outside = outside_by(seat, &reading.report);
    return reading;
}

VbReport vb_seat_follow(const VbSeat *seat, const VbMessage *message, uint32_t pages,
                        uint32_t target)
{
    struct told told = {.seat = seat, .message = message};
    Sum taken = beyond(seat->pages, pages), number = seat->target_number;
    return (VbReport){
        .ballooned = seat->uncounted ? 0 : message->ballooned,
        .target = target,
        .read_target = target,
        .outside = (uint32_t)less(has_outside(&told), seat->outside + taken),
        .target_number = (uint64_t)less(number + (target != seat->target), UINT64_MAX),
        .deflates = 1,
    };
}

VbExchange vb_seat_note(const VbSeat *seat, const VbExchange *exchange, const VbMessage *message,
                        uint64_t now)
{
    struct told told = {seat, exchange, message, now};
    struct ask ask = ask_by(&told);
    VbExchange then = *exchange;
    if (ask.what && (ask.what != exchange->ask || ask.number != exchange->asked)) {
        then.ask = ask.what;
        then.asked = ask.number;
        then.asks = (uint64_t)less((Sum)exchange->asks + 1, UINT64_MAX);
    }
    if (!has_received(&told))
        then.received = 0;
    else if (!exchange->received)
        then.received = now;
    return then;
}
