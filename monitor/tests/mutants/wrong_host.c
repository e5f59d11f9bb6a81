/* Hosts that are wrong on purpose: tests have to find each. The linker puts these functions before
 * those of the same names, and the environment's HOST_WRONG says which host it is:
 *
 *     1  asks each guest for the same
 *     2  asks each guest for what the guest before it should give
 *     3  leaves no guest its floor
 *     4  still counts the pages of guests that have gone
 *     7  doesn't decide again when the floor changes
 *     9  lowers a guest's limit by its target, before its pages came
 *    10  grants a deflate before the guest's limit is raised
 *    11  tells a guest all of a target that falls, and lends only a part of that
 *    12  takes a target for read before its driver has read it
 *    13  grants as if there were a MiB more
 *    14  never says what is wanted of a guest
 *    15  grants each deflate that is held, whether or not it is due
 *    16  counts the balloon of the report before, where that had more
 *    17  counts each report's deflate as another one
 *    18  never says that there is a budget, once all guests have reported
 *    19  takes a report for that of the guest at the next place
 *    20  sends no target
 *    21  is built with another layout of vb_host.h than the library's
 *    22  has no guest pressed
 *    23  has a guest pressed for good
 *    24  takes page cache for unused memory
 *    25  has a guest pressed by what its own balloon reclaims
 *    26  admits each guest that comes from another host
 *    27  lends a guest that comes from another host all its memory
 *    33  gives each grant once, whether or not it finds room
 *    34  sends each target once, whether or not it finds room
 *    35  lends the overdraft as if the budget had it
 *    36  leaves guests their floors while one waits
 *    37  forgets the deflate of who lets others pass
 *    38  takes all weights for 1
 *    39  lends a page more than the budget
 *    40  forgets what an earlier lender has lent
 *
 * 5, 8 and 28 to 32 are wrong in guests' processes (wrong_lent.c).
 */
#include "wrong_host.h"

#include <string.h>

void __real_host_changed(struct host *, enum reason);
void __wrap_host_changed(struct host *, enum reason);
void __real_limits_follow(struct host *);
void __wrap_limits_follow(struct host *);
bool __real_limit_allows(const struct seat *);
bool __wrap_limit_allows(const struct seat *);
uint32_t __real_vb_host_step(VbHost *, VbSeat *, size_t, const VbHostEvent *);
uint32_t __wrap_vb_host_step(VbHost *, VbSeat *, size_t, const VbHostEvent *);

uint64_t __real_policy_lacks(struct host *, const struct seat *, uint32_t);
uint64_t __wrap_policy_lacks(struct host *, const struct seat *, uint32_t);
__typeof__(vb_seat_read) __real_vb_seat_read, __wrap_vb_seat_read;
__typeof__(vb_seat_same) __wrap_vb_seat_same;
__typeof__(vb_host_happen) __real_vb_host_happen, __wrap_vb_host_happen;
uint32_t __wrap_vb_host_version(void);
uint32_t __real_vb_seat_due_grant(const VbSeat *, const VbReport *);
uint32_t __wrap_vb_seat_due_grant(const VbSeat *, const VbReport *);
void __real_seat_tell(struct seat *);
void __wrap_seat_tell(struct seat *);
void __real_seat_look_again(struct seat *, bool);
void __wrap_seat_look_again(struct seat *, bool);

void __wrap_host_changed(struct host *host, enum reason reason)
{
    static uint32_t frames;
    if (wrong() != OLD_FLOOR || reason != BY_BUDGET || host->frames != frames)
        __real_host_changed(host, reason);
    frames = host->frames;
}

void __wrap_limits_follow(struct host *host)
{
    static VbSeat places[MOST_PLACES];
    memcpy(places, host->places, host->place_count * sizeof places[0]);
    for (unsigned i = 0; i < host->place_count && wrong() == LOWERS_EARLY; i++) {
        VbSeat *its = &host->places[i];
        if (its->granted > 0 && its->target > its->ballooned)
            its->ballooned = its->least_target = its->target;
    }
    __real_limits_follow(host);
    memcpy(host->places, places, host->place_count * sizeof places[0]);
}

bool __wrap_limit_allows(const struct seat *seat)
{
    return wrong() == GRANTS_EARLY || __real_limit_allows(seat);
}

/* Whether it is the first time that this grant of the seat is due. */
static bool is_new(const VbSeat *seat)
{
    static struct {
        const VbSeat *seat;
        uint64_t granted;
    } given[MOST_PLACES];
    unsigned place = 0;
    while (given[place].seat && given[place].seat != seat)
        place++;
    bool was = given[place].granted == seat->granted;
    given[place].seat = seat;
    given[place].granted = seat->granted;
    return !was;
}

uint32_t __wrap_vb_seat_due_grant(const VbSeat *seat, const VbReport *report)
{
    uint32_t is_due = __real_vb_seat_due_grant(seat, report);
    if (wrong() == GRANTS_ONCE)
        return is_due && is_new(seat);
    return wrong() == GRANTS_ALL ? report->held > 0 : is_due;
}

void __wrap_seat_look_again(struct seat *seat, bool asks)
{
    wrong() == TELLS_ONCE ? seat_look(seat, asks) : __real_seat_look_again(seat, asks);
}

uint64_t __wrap_policy_lacks(struct host *host, const struct seat *newcomer, uint32_t pages)
{
    return wrong() == ADMITS_ALL ? 0 : __real_policy_lacks(host, newcomer, pages);
}

VbReading __wrap_vb_seat_read(const VbSeat *seat, const VbExchange *exchange,
                              const VbMessage *message, uint64_t now)
{
    VbReading reading = __real_vb_seat_read(seat, exchange, message, now);
    if (wrong() != LENDS_ALL)
        return reading;
    reading.without = 0;
    if (reading.report.line == VB_LINE_ARRIVALS)
        reading.report.held = seat->pages;
    return reading;
}

uint32_t __wrap_vb_host_version(void)
{
    return VB_HOST_VERSION + (wrong() == OTHER_LAYOUT);
}

void __wrap_seat_tell(struct seat *seat)
{
    if (wrong() != TELLS_NONE)
        __real_seat_tell(seat);
}

/* Nothing stays the same: each report takes a step, with what is wrong of that. */
uint32_t __wrap_vb_seat_same(const VbSeat *seat, const VbSeat *other)
{
    (void)seat, (void)other;
    return 0;
}

/* The deflates of those that have let others pass. */
static uint64_t passed[MOST_PLACES];

/* What is wrong of a report. */
static void change_report(const VbSeat *seats, const VbHostEvent *event, VbReport *report)
{
    static uint32_t before[MOST_PLACES];
    static uint64_t count;
    uint32_t ballooned = report->ballooned;
    if (wrong() == READS_EARLY) {
        report->target_number = seats[event->guest].target_number;
        report->read_target = seats[event->guest].target;
    }
    if (wrong() == COUNTS_BEFORE && before[event->guest] > ballooned)
        report->ballooned = before[event->guest];
    if (wrong() == COUNTS_TWICE)
        report->deflates += ++count;
    if (wrong() == FORGETS_DEFERRED && passed[event->guest] == report->deflates)
        report->held = 0;
    before[event->guest] = ballooned;
}

/* Whether an event is left out. */
static bool is_left_out(const VbHostEvent *event)
{
    return (wrong() == WANTS_NOTHING && event->kind == VB_WANTS) ||
           (wrong() == NO_BUDGET && event->kind == VB_BUDGET);
}

/* Falls to what is wanted, and lends nothing by that. */
static void lend_none(VbSeat *seats, size_t count)
{
    for (size_t i = 0; i < count; i++)
        if (seats[i].granted > 0 && !vb_seat_waits(&seats[i]) &&
            seats[i].target > seats[i].wanted) {
            seats[i].target = seats[i].wanted;
            seats[i].target_number++;
        }
}

/* The frames that it lends beyond those that it has. */
static uint32_t more_frames(const VbHost *host)
{
    switch (wrong()) {
    case GRANTS_MORE:
        return PAGES_PER_MIB;
    case KEEPS_OVERDRAFT:
        return host->overdraft;
    default:
        return wrong() == LENDS_ONE_MORE;
    }
}

uint32_t __wrap_vb_host_happen(VbHost *host, VbSeat *seats, size_t count, const VbHostEvent *event)
{
    return is_left_out(event) ? VB_OK : __real_vb_host_happen(host, seats, count, event);
}

uint32_t __wrap_vb_host_step(VbHost *host, VbSeat *seats, size_t count, const VbHostEvent *event)
{
    VbHost other = {host->frames + more_frames(host), 0};
    VbHostEvent changed = *event;
    if (is_left_out(event))
        return VB_OK;
    if (event->kind == VB_HEARS)
        change_report(seats, event, &changed.report);
    if (wrong() == FORGETS_LOANS && event->kind == VB_TAKES_OVER)
        changed.report.ballooned = changed.report.target = changed.report.read_target =
            event->pages;
    if (event->kind == VB_DEFERS)
        passed[event->guest] = seats[event->guest].deflates;
    if (wrong() == NEXT_PLACE && event->kind == VB_HEARS)
        changed.guest = (event->guest + 1) % count;
    bool has_more = more_frames(host) > 0 && event->kind != VB_BUDGET;
    uint32_t code = __real_vb_host_step(has_more ? &other : host, seats, count, &changed);
    if (wrong() == NONE_AHEAD)
        lend_none(seats, count);
    return code;
}
