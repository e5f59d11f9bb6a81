/* What a process's message says: the report that a step takes, and numbers of pages; and what is
 * noted of it. */
#include "seats.h"
#include <string.h>

#define COUNT(rows) (sizeof(rows) / sizeof *(rows))

/* A guest of 60 pages, 30 of which are in its balloon, with 7 outside. Its sixth ask, a deflate
 * that its process numbers 8, was granted. */
static VbSeat seat_of_60(void)
{
    VbSeat seat = {.pages = 60, .ballooned = 30, .least_target = 25, .target = 30, .outside = 7};
    seat.target_number = 4;
    seat.deflates = seat.granted = 6;
    return seat;
}

/* Its fourth target was sent before the twelfth order to report, and received at 1000 ms. */
static VbExchange exchange_of_6(void)
{
    return (VbExchange){VB_ASK_DEFLATE, 8, 6, 4, 12, 12, 1000};
}

/* What it says where it is as it was. */
static VbMessage message_of_60(void)
{
    VbMessage message = {.pages = 60, .ballooned = 30, .target = 30, .read = 31, .outside = 7};
    message.deflate = 8;
    message.wait = 5;
    message.holds = VB_HOLDS_DEFLATES;
    message.start = message.most = UINT32_MAX;
    return message;
}

/* ---- memory */

static const struct {
    const char *what;
    uint32_t pages, ballooned, held, says;
    uint64_t asks;
    uint32_t outside, taken;
} memories[] = {
    {"as it was", 60, 30, 0, 7, 6, 7, 0},
    {"fewer outside", 60, 30, 0, 3, 6, 3, 0},
    {"more outside", 60, 30, 0, 8, 6, 7, 0},
    {"10 are taken away, and all stay", 50, 30, 0, 99, 6, 17, 0},
    {"4 of them were in the balloon", 50, 26, 0, 99, 6, 13, 0},
    {"all of them were", 50, 20, 0, 99, 6, 7, 0},
    {"one more has left the balloon", 50, 19, 0, 99, 6, 6, 1},
    {"two have, and none is taken away", 60, 28, 0, 7, 6, 5, 2},
    {"what is granted has left it", 60, 30, 3, 7, 6, 4, 3},
    {"what waits hasn't", 60, 30, 3, 7, 7, 7, 0},
    {"the balloon has grown", 60, 40, 0, 8, 6, 7, 0},
    {"all memory is taken away", 0, 30, 0, 99, 6, 67, 0},
    {"and the balloon with it", 0, 0, 0, 99, 6, 37, 0},
};

/* What is outside once a step has taken the report. */
static uint32_t outside_after(VbReport report)
{
    VbHost host = {60, 0};
    VbSeat seat = seat_of_60();
    VbHostEvent event = {.kind = VB_HEARS, .report = report};
    expect(vb_host_step(&host, &seat, 1, &event) == VB_OK, "a report is taken");
    return seat.outside;
}

static void check_memories(void)
{
    for (size_t i = 0; i < COUNT(memories); i++) {
        VbSeat seat = seat_of_60();
        VbExchange exchange = exchange_of_6();
        VbMessage message = message_of_60();
        message.pages = memories[i].pages;
        message.ballooned = memories[i].ballooned;
        message.held = memories[i].held;
        message.outside = memories[i].says;
        exchange.asks = memories[i].asks;
        VbReading reading = vb_seat_read(&seat, &exchange, &message, 1000);
        expect(reading.report.outside == memories[i].outside, memories[i].what);
        expect(reading.taken == memories[i].taken, memories[i].what);
        expect(reading.report.removed == 60 - memories[i].pages, memories[i].what);
        uint32_t then = memories[i].taken > 0 ? 7 : memories[i].outside;
        expect(outside_after(reading.report) == then, memories[i].what);
        message.holds = VB_HOLDS_NOTHING;
        reading = vb_seat_read(&seat, &exchange, &message, 1000);
        expect(reading.taken == 0, "who isn't strict takes none unasked");
    }
}

/* Pages that are in slots again, and more; of a guest whose balloon doesn't count. */
static const struct {
    const char *what;
    uint32_t pages, says, ballooned, uncounted, files, outside, joins, ungranted;
} returns[] = {
    {"4 of 7", 64, 3, 30, 0, 0, 3, 4, 0},
    {"2 of them are nowhere", 62, 3, 30, 0, 0, 3, 2, 0},
    {"6 more than were outside", 70, 3, 30, 0, 0, 3, 4, 6},
    {"none, where pages were taken unasked", 64, 3, 29, 0, 0, 3, 0, 0},
    {"it says 3, of which its files hold none", 64, 3, 30, 1, 64, 3, 4, 0},
    {"its files hold 2 of those that stay", 64, 0, 30, 1, 66, 2, 4, 0},
    {"they hold all, and nothing returns", 60, 0, 30, 1, 99, 7, 0, 0},
    {"they hold 5", 60, 3, 30, 1, 65, 5, 0, 0},
};

static void check_returns(void)
{
    for (size_t i = 0; i < COUNT(returns); i++) {
        VbSeat seat = seat_of_60();
        VbExchange exchange = exchange_of_6();
        VbMessage message = message_of_60();
        message.pages = returns[i].pages;
        message.outside = returns[i].says;
        message.ballooned = returns[i].ballooned;
        message.files = returns[i].files;
        if (returns[i].uncounted)
            seat.ballooned = seat.least_target = 0, seat.uncounted = 1;
        VbReading reading = vb_seat_read(&seat, &exchange, &message, 1000);
        expect(reading.report.outside == returns[i].outside, returns[i].what);
        expect(reading.joins == returns[i].joins, returns[i].what);
        expect(reading.ungranted == returns[i].ungranted, returns[i].what);
    }
}

/* ---- what it asks for */

static const struct {
    const char *what;
    uint32_t waits, held, deflate, ballooned, limited, start;
    uint64_t granted;
    uint32_t asks_for, line, resets;
    bool is_new;
} asks[] = {
    {"nothing", 0, 0, 8, 30, 0, 0, 6, 0, VB_LINE_DEFLATES, 0, false},
    {"the deflate that was granted", 0, 3, 8, 30, 0, 0, 6, 3, VB_LINE_DEFLATES, 0, false},
    {"another deflate", 0, 3, 9, 30, 0, 0, 6, 3, VB_LINE_DEFLATES, 0, true},
    {"a reset", VB_ASK_RESET, 0, 8, 30, 0, 0, 6, 30, VB_LINE_RESETS, 0, true},
    {"a reset of nothing", VB_ASK_RESET, 0, 8, 0, 0, 0, 6, 0, VB_LINE_DEFLATES, 1, false},
    {"a reset but for 10 pages", VB_ASK_RESET, 0, 8, 30, 1, 50, 6, 20, VB_LINE_RESETS, 0, true},
    {"a reset but for all", VB_ASK_RESET, 0, 8, 30, 1, 30, 6, 0, VB_LINE_DEFLATES, 1, false},
    {"a reset before a deflate", VB_ASK_RESET, 3, 9, 30, 0, 0, 6, 30, VB_LINE_RESETS, 0, true},
    {"a granted deflate first", VB_ASK_RESET, 3, 8, 30, 0, 0, 6, 3, VB_LINE_DEFLATES, 0, false},
    {"one that wasn't granted", VB_ASK_RESET, 3, 8, 30, 0, 0, 5, 30, VB_LINE_RESETS, 0, true},
    {"added memory", VB_ASK_ROOM, 0, 8, 30, 0, 0, 6, 0, VB_LINE_DEFLATES, 0, false},
    {"its room", VB_ASK_ROOM, 3, 9, 30, 0, 0, 0, 60, VB_LINE_ARRIVALS, 0, true},
    {"its room but for 40 pages", VB_ASK_ROOM, 0, 8, 30, 1, 20, 0, 20, VB_LINE_ARRIVALS, 0, true},
    {"nothing of this number", VB_ASK_DEFLATE, 0, 8, 30, 0, 0, 6, 0, VB_LINE_DEFLATES, 0, false},
};

static void check_asks(void)
{
    for (size_t i = 0; i < COUNT(asks); i++) {
        VbSeat seat = seat_of_60();
        VbExchange exchange = exchange_of_6();
        VbMessage message = message_of_60();
        seat.granted = asks[i].granted;
        message.waits = asks[i].waits;
        message.held = asks[i].held;
        message.deflate = asks[i].deflate;
        message.ballooned = asks[i].ballooned;
        message.limited = asks[i].limited;
        message.start = asks[i].limited ? asks[i].start : UINT32_MAX;
        message.holds = VB_MAY_START_SMALL;
        VbExchange then = vb_seat_note(&seat, &exchange, &message, 9000);
        expect(then.asks == 6u + asks[i].is_new, asks[i].what);
        VbReading reading = vb_seat_read(&seat, &then, &message, 9000);
        expect(reading.report.held == asks[i].asks_for, asks[i].what);
        expect(reading.report.line == asks[i].line, asks[i].what);
        expect(reading.report.deflates == then.asks, asks[i].what);
        expect(reading.resets == asks[i].resets, asks[i].what);
        VbExchange again = vb_seat_note(&seat, &then, &message, 9999);
        expect(!memcmp(&again, &then, sizeof then), "an ask is noted once");
    }
}

/* Which of its own numbers is that of an ask. */
static void check_numbers(void)
{
    VbSeat seat = seat_of_60();
    VbExchange exchange = exchange_of_6();
    VbMessage message = message_of_60();
    message.waits = VB_ASK_RESET;
    VbExchange then = vb_seat_note(&seat, &exchange, &message, 0);
    expect(then.ask == VB_ASK_RESET && then.asked == 5, "a reset has the number of its wait");
    message.waits = VB_ASK_NOTHING;
    message.held = 1;
    message.deflate = 9;
    then = vb_seat_note(&seat, &then, &message, 0);
    expect(then.ask == VB_ASK_DEFLATE && then.asked == 9, "a deflate has a number of its own");
    then.asks = UINT64_MAX;
    message.deflate = 10;
    then = vb_seat_note(&seat, &then, &message, 0);
    expect(then.asks == UINT64_MAX && then.asked == 10, "the last number stays");
}

/* ---- a guest that comes, or starts, with less than all its pages */

static const struct {
    const char *what;
    uint32_t wanted, ballooned, limited, holds, start, most, without;
} comes[] = {
    {"with all", 80, 0, 0, VB_MAY_START_SMALL, 20, 90, 0},
    {"with what it starts with", 80, 0, 1, VB_MAY_START_SMALL, 20, 90, 60},
    {"with what it may have", 80, 0, 1, VB_HAS_STARTED_SMALL, 20, 10, 70},
    {"with all, as it starts with more", 80, 0, 1, VB_MAY_START_SMALL, 90, 90, 0},
    {"with all, as its process can't", 80, 0, 1, VB_HOLDS_DEFLATES, 20, 90, 0},
    {"as its process can by any other number", 80, 0, 1, 4, 20, 90, 60},
    {"with what it hasn't given elsewhere", 80, 30, 1, VB_MAY_START_SMALL, 20, 90, 30},
    {"with all that it gave elsewhere, as it isn't strict", 80, 30, 1, VB_HOLDS_NOTHING, 20, 90, 0},
    {"with a page of all that it gave", 80, 80, 0, VB_HOLDS_DEFLATES, 0, 0, 79},
    {"with a page of more than it has", 80, 99, 0, VB_HOLDS_DEFLATES, 0, 0, 79},
    {"with none", 0, 30, 0, VB_HOLDS_DEFLATES, 0, 0, 0},
};

static void check_comers(void)
{
    VbExchange exchange = {0};
    for (size_t i = 0; i < COUNT(comes); i++) {
        VbSeat seat = {.pages = 80, .ballooned = 50};
        VbMessage message = {.wanted = comes[i].wanted, .ballooned = comes[i].ballooned};
        message.waits = VB_ASK_ROOM;
        message.limited = comes[i].limited;
        message.holds = comes[i].holds;
        message.start = comes[i].start;
        message.most = comes[i].most;
        VbReading reading = vb_seat_read(&seat, &exchange, &message, 0);
        expect(reading.without == comes[i].without, comes[i].what);
        expect(reading.wants == comes[i].wanted, "it waits for all that it wants");
        expect(reading.brings == comes[i].wanted, "it brings all that it wants");
        expect(reading.report.ballooned == 50, "its balloon here is as it was");
        expect(reading.small == (comes[i].holds == VB_HAS_STARTED_SMALL), "it wasn't let in");
        seat.granted = 1;
        expect(vb_seat_read(&seat, &exchange, &message, 0).small == 1, "it was let in with less");
        seat.ballooned = 0;
        reading = vb_seat_read(&seat, &exchange, &message, 0);
        expect(reading.small == (comes[i].holds == VB_HAS_STARTED_SMALL), "it was with all");
        expect(reading.wants == 0, "all that it wants has room");
    }
}

/* ---- its target */

static const struct {
    const char *what;
    uint64_t sent, sent_by, obeyed, received, now;
    uint32_t target, read, read_target;
    bool is_received;
    uint64_t then;
} targets[] = {
    {"it has read its target", 4, 12, 12, 1000, 1000, 30, 31, 30, true, 1000},
    {"it has read another one", 4, 12, 12, 1000, 9999, 30, 21, 20, true, 1000},
    {"it has read none at all", 4, 12, 12, 1000, 9999, 30, 1, 0, true, 1000},
    {"its reads aren't seen yet", 4, 12, 12, 1000, 3999, 30, 0, 29, true, 1000},
    {"its reads aren't seen, and it had time", 4, 12, 12, 1000, 4000, 30, 0, 30, true, 1000},
    {"it has just received it", 4, 12, 12, 0, 9999, 30, 0, 30 - 1, true, 9999},
    {"another target was sent", 3, 12, 12, 1000, 9999, 30, 31, 30, false, 0},
    {"an order after it wasn't obeyed", 4, 12, 11, 1000, 9999, 30, 31, 30, false, 0},
    {"a later one was", 4, 12, 13, 1000, 9999, 30, 31, 30, true, 1000},
    {"it has another target", 4, 12, 12, 1000, 9999, 29, 31, 30, false, 0},
};

static void check_reads(void)
{
    for (size_t i = 0; i < COUNT(targets); i++) {
        VbSeat seat = seat_of_60();
        VbMessage message = message_of_60();
        VbExchange exchange = {0, 0, 0, targets[i].sent, targets[i].sent_by, targets[i].obeyed, 0};
        exchange.received = targets[i].received;
        message.target = targets[i].target;
        message.read = targets[i].read;
        VbReading reading = vb_seat_read(&seat, &exchange, &message, targets[i].now);
        expect(reading.report.read_target == targets[i].read_target, targets[i].what);
        expect(reading.report.target == targets[i].target, targets[i].what);
        expect((reading.report.target_number == 4) == targets[i].is_received, targets[i].what);
        VbExchange then = vb_seat_note(&seat, &exchange, &message, targets[i].now);
        expect(then.received == targets[i].then, targets[i].what);
    }
}

/* Where the last target is 0, and was the first. */
static void check_others(void)
{
    VbSeat seat = {.pages = 60, .granted = 1};
    VbExchange exchange = {0};
    VbMessage message = {.pages = 60, .target = 30};
    VbReport report = vb_seat_read(&seat, &exchange, &message, 0).report;
    expect(report.read_target != 0 && report.target_number != 0, "no other number than this one");
}

/* ---- a guest that isn't strict */

static const struct {
    const char *what;
    uint32_t uncounted, says, pages, target, ballooned, outside;
    uint64_t number;
} followed[] = {
    {"as it was", 0, 7, 60, 30, 26, 7, 4},
    {"with another target", 0, 7, 60, 20, 26, 7, 5},
    {"with fewer pages, all of which stay outside", 0, 99, 50, 30, 26, 17, 4},
    {"with more pages", 0, 99, 70, 30, 26, 7, 4},
    {"its balloon doesn't count", 1, 3, 60, 30, 0, 5, 4},
};

static void check_followed(void)
{
    for (size_t i = 0; i < COUNT(followed); i++) {
        VbSeat seat = seat_of_60();
        VbMessage message = message_of_60();
        seat.uncounted = followed[i].uncounted;
        message.ballooned = 26;
        message.outside = followed[i].says;
        message.files = 65;
        uint32_t target = followed[i].target;
        VbReport report = vb_seat_follow(&seat, &message, followed[i].pages, target);
        VbReport as = {.ballooned = followed[i].ballooned, .target = target, .read_target = target};
        as.outside = followed[i].outside;
        as.target_number = followed[i].number;
        as.deflates = 1;
        expect(!memcmp(&report, &as, sizeof as), followed[i].what);
    }
    VbSeat last = {.target_number = UINT64_MAX};
    VbMessage nothing = {0};
    expect(vb_seat_follow(&last, &nothing, 0, 9).target_number == UINT64_MAX, "the last number");
}

void check_messages(void)
{
    check_memories();
    check_returns();
    check_asks();
    check_numbers();
    check_comers();
    check_reads();
    check_others();
    check_followed();
}
