/* Messages of a process at random, which the library and the plain implementation have to read and
 * note alike, and targets that follow what was decided. */
#include "guests.h"
#include <string.h>

/* This number as often as not, or one beside it, or any. */
static uint32_t number_by(uint32_t number)
{
    return chance(2) ? number : chance(2) ? number + chance(5) - 2 : (uint32_t)any();
}

static uint64_t count_by(uint64_t count)
{
    return chance(2) ? count : chance(2) ? count + chance(3) - 1 : any();
}

static VbExchange any_exchange(const VbSeat *seat)
{
    VbExchange exchange = {.ask = chance(5), .asked = chance(3)};
    exchange.asks = chance(9) ? count_by(seat->granted) : UINT64_MAX;
    exchange.sent = count_by(seat->target_number);
    exchange.sent_by = chance(3);
    exchange.obeyed = chance(3);
    exchange.received = chance(3) ? 1 + chance(9000) : 0;
    return exchange;
}

static VbMessage any_message(const VbSeat *seat)
{
    VbMessage message = {.pages = number_by(seat->pages), .wanted = number_by(seat->pages)};
    message.ballooned = number_by(seat->ballooned);
    message.target = number_by(seat->target);
    message.read = chance(2) ? number_by(seat->target + 1) : 0;
    message.held = chance(2) ? 0 : number_by(seat->held);
    message.deflate = chance(3);
    message.waits = chance(5);
    message.wait = chance(3);
    message.holds = chance(6);
    message.outside = number_by(seat->outside);
    message.files = number_by(seat->pages + seat->outside);
    message.start = chance(2) ? UINT32_MAX : number_by(seat->ballooned);
    message.most = chance(2) ? UINT32_MAX : number_by(seat->pages);
    message.limited = chance(3);
    if (chance(4) == 0)
        message.pages = 0, message.waits = VB_ASK_ROOM;
    return message;
}

static bool paces_alike(const VbSeat *seat)
{
    VbAim aim = {.target = number_by(seat->target), .strict = chance(3), .ready = chance(2)};
    aim.seconds = chance(3) ? 1 + chance(3) : number_by(0);
    aim.needed = chance(4) == 0;
    aim.frames = number_by(100);
    aim.held_kib = count_by(4 * (uint64_t)aim.frames);
    aim.passed = chance(2) ? chance(3000) : count_by(0);
    VbPace pace = vb_seat_pace(seat, &aim), beside = reference_seat_pace(seat, &aim);
    return !memcmp(&pace, &beside, sizeof pace);
}

bool is_read_alike(const VbSeat *seat)
{
    VbExchange exchange = any_exchange(seat);
    VbMessage message = any_message(seat);
    uint64_t now = chance(3) ? exchange.received + 2999 + chance(3) : any();
    VbExchange noted = vb_seat_note(seat, &exchange, &message, now);
    VbExchange other = reference_seat_note(seat, &exchange, &message, now);
    VbReading reading = vb_seat_read(seat, &exchange, &message, now);
    VbReading beside = reference_seat_read(seat, &exchange, &message, now);
    uint32_t pages = number_by(seat->pages), target = number_by(seat->target);
    VbReport report = vb_seat_follow(seat, &message, pages, target);
    VbReport same = reference_seat_follow(seat, &message, pages, target);
    return paces_alike(seat) && !memcmp(&report, &same, sizeof report) &&
           !memcmp(&noted, &other, sizeof noted) && !memcmp(&reading, &beside, sizeof reading);
}
