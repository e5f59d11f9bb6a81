/* Random events of a host's lender, by the library and by the plain implementation, which have to
 * leave the same; and laws of strict guests: none uses more than it is lent, no event lends beyond
 * the budget, and a step leaves nothing to do. */
#include "guests.h"
#include <stdio.h>
#include <stdlib.h>
#include <string.h>

enum { PLACES = 6, DAY = 64, RARE = 4000 };

/* Each eighth day has seats and reports of any numbers, which no events need lead to. */
struct day {
    VbHost host, twin;
    VbSeat seats[PLACES], twins[PLACES];
    struct guest guests[PLACES];
    size_t count;
    bool odd;
    unsigned long long number;
    VbHostEvent event;
};

/* How many events of a kind had an effect. */
static unsigned long long effects[VB_DEFERS + 1];

static void fail(const struct day *day, const char *what)
{
    const VbHostEvent *event = &day->event;
    fprintf(stderr, "seats: %s: day %llu, event %u of guest %zu, %zu, pages %u, %u, %u\n", what,
            day->number, event->kind, event->guest, event->added, event->pages, event->ballooned,
            event->frames);
    for (size_t i = 0; i < day->count; i++) {
        print_seat(i, &day->seats[i]);
        print_seat(i, &day->twins[i]);
    }
    exit(1);
}

/* ---- events */

static uint32_t odd_number(void)
{
    return chance(3) ? chance(60) : chance(2) ? UINT32_MAX - chance(3) : (uint32_t)any();
}

static uint64_t odd_count(void)
{
    return chance(8) ? chance(4) : chance(2) ? UINT64_MAX - chance(2) : any();
}

static VbReport odd_report(const VbSeat *seat)
{
    VbReport report = {odd_number(), odd_number(), odd_number(), odd_number(), odd_number(),
                       odd_number(), odd_count(),  odd_count(),  odd_count()};
    if (chance(2))
        report.read_target = seat->target, report.target_number = seat->target_number;
    if (chance(3))
        report.held = 0;
    if (chance(2))
        report.deflates = seat->granted + chance(2);
    if (chance(2))
        report.outside = seat->outside, report.removed = seat->removed + chance(2);
    return report;
}

static VbSeat odd_seat(void)
{
    VbSeat seat = {.pages = odd_number(), .ballooned = odd_number()};
    seat.least_target = odd_number();
    seat.target = odd_number();
    seat.wanted = odd_number();
    seat.held = chance(2) ? odd_number() : 0;
    seat.line = odd_number();
    seat.outside = chance(3) ? odd_number() : 0;
    seat.target_number = odd_count();
    seat.deflates = odd_count();
    seat.granted = odd_count();
    seat.removed = odd_count();
    seat.turn = odd_count();
    seat.uncounted = chance(4) ? 0 : odd_number();
    seat.preferred = chance(4) ? 0 : odd_number();
    seat.deferred = chance(4) ? 0 : odd_number();
    return seat;
}

static uint32_t any_kind(void)
{
    static const uint32_t often[] = {VB_HEARS,     VB_HEARS, VB_HEARS,      VB_HEARS,
                                     VB_HEARS,     VB_HEARS, VB_GRANTS,     VB_OVERDRAWS,
                                     VB_OVERDRAWS, VB_WANTS, VB_WANTS,      VB_TARGETS,
                                     VB_ARRIVES,   VB_JOINS, VB_TAKES_OVER, VB_BUDGET};
    static const uint32_t rare[] = {VB_UNCOUNTS, VB_PREFERS, VB_DEFERS};
    if (chance(24) == 0)
        return rare[chance(sizeof rare / sizeof *rare)];
    return often[chance(sizeof often / sizeof *often)];
}

/* What an event says of the guest that it is of. */
static void say(struct day *day, VbHostEvent *event)
{
    struct guest *guest = &day->guests[event->guest];
    event->pages = event->kind == VB_TAKES_OVER ? guest->pages : chance(80);
    if (event->kind == VB_WANTS)
        event->pages = chance(guest->pages / 2 + 2);
    event->ballooned = chance(3) ? 0 : chance(40);
    if (event->kind == VB_TAKES_OVER)
        event->report = guest->now;
    else if (event->kind == VB_HEARS)
        event->report = guest_message(guest);
    if (event->kind == VB_ARRIVES && chance(4) == 0)
        event->pages = 0;
    if (!day->odd)
        return;
    event->pages = odd_number();
    event->report = odd_report(&day->seats[event->guest]);
}

/* Whether the memory of a place may join another one, as far as its process knows. */
static bool may_join(const struct day *day, size_t added)
{
    const struct guest *guest = &day->guests[added];
    return day->odd || (guest->now.held == 0 && guest->now.removed == day->seats[added].removed);
}

static VbHostEvent any_event(struct day *day)
{
    VbHostEvent event = {.kind = any_kind(), .frames = 20 + chance(200)};
    size_t first = vb_host_first(day->seats, day->count);
    event.guest = chance(40) ? chance((uint32_t)day->count) : day->count + chance(2);
    bool is_of_first = event.kind == VB_OVERDRAWS || event.kind == VB_DEFERS;
    if (is_of_first && first < day->count && chance(4))
        event.guest = first;
    event.added = chance((uint32_t)day->count + 1);
    if (event.guest < day->count)
        say(day, &event);
    if (event.kind == VB_JOINS && event.added < day->count && !may_join(day, event.added))
        event.added = day->count;
    return event;
}

/* What the event is to the processes. */
static void follow(struct day *day, const VbSeat *before)
{
    const VbHostEvent *event = &day->event;
    if (event->guest >= day->count)
        return;
    struct guest *guest = &day->guests[event->guest];
    if (event->kind == VB_ARRIVES)
        guest_arrive(guest, event->pages, event->ballooned);
    else if (event->kind == VB_TAKES_OVER)
        guest_connect(guest);
    else if (event->kind == VB_JOINS && event->added < day->count &&
             day->seats[event->guest].pages > before[event->guest].pages)
        guest_join(guest, &day->guests[event->added]);
}

/* ---- what has to hold */

static void check_same(const struct day *day, const VbHost *host, const VbSeat *seats,
                       const char *what)
{
    if (host->frames != day->host.frames || host->overdraft != day->host.overdraft)
        fail(day, what);
    for (size_t i = 0; i < day->count; i++)
        if (!same_seat(&day->seats[i], &seats[i]))
            fail(day, what);
}

/* Another step leaves what the last one did. */
static void check_settled(const struct day *day)
{
    VbHost host = day->host;
    VbSeat seats[PLACES];
    VbHostEvent event = {.kind = VB_WANTS, .guest = day->count};
    memcpy(seats, day->seats, sizeof seats);
    vb_host_step(&host, seats, day->count, &event);
    check_same(day, &host, seats, "a step leaves something to do");
}

/* The event alone is the same to both, and what a step leaves that follows it is what the event's
 * own step does. */
static void check_happens(const struct day *day, VbHost host, const VbSeat *before)
{
    VbHostEvent nothing = {.kind = VB_WANTS, .guest = day->count};
    VbHost twin = host;
    VbSeat seats[PLACES], twins[PLACES];
    memcpy(seats, before, sizeof seats);
    memcpy(twins, before, sizeof twins);
    if (vb_host_happen(&host, seats, day->count, &day->event) != VB_OK ||
        reference_host_happen(&twin, twins, day->count, &day->event) != VB_OK)
        fail(day, "an event alone is refused");
    for (size_t i = 0; i < day->count; i++)
        if (!same_seat(&seats[i], &twins[i]))
            fail(day, "an event alone leaves something else");
    vb_host_step(&host, seats, day->count, &nothing);
    check_same(day, &host, seats, "a step after an event alone leaves something else");
}

static void check_readers(const struct day *day)
{
    const VbSeat *seats = day->seats;
    VbReport report = odd_report(&seats[0]);
    if (vb_host_owed(seats, day->count) != reference_host_owed(seats, day->count) ||
        vb_host_room(&day->host, seats, day->count) !=
            reference_host_room(&day->host, seats, day->count) ||
        vb_host_first(seats, day->count) != reference_host_first(seats, day->count) ||
        vb_host_least_budget(seats, day->count) != reference_host_least_budget(seats, day->count))
        fail(day, "the plain implementation reads something else of all");
    if (!is_relieved_alike(&day->host, seats, day->count))
        fail(day, "the plain implementation is helped otherwise");
    for (const VbSeat *it = seats; it < seats + day->count; it++)
        if (vb_seat_lent(it) != reference_seat_lent(it) ||
            vb_seat_asked(it) != reference_seat_asked(it) ||
            vb_seat_waits(it) != reference_seat_waits(it) ||
            vb_seat_same(it, seats) != reference_seat_same(it, seats) ||
            vb_seat_due_target(it, &report) != reference_seat_due_target(it, &report) ||
            vb_seat_due_grant(it, &report) != reference_seat_due_grant(it, &report))
            fail(day, "the plain implementation reads something else of a seat");
    for (const VbSeat *it = seats; it < seats + day->count; it++)
        if (!is_read_alike(it))
            fail(day, "the plain implementation reads something else of a message");
}

/* Before its guests go on, of strict ones. */
static void check_laws(const struct day *day, const VbSeat *before)
{
    uint64_t most = vb_host_owed(before, day->count), budget = day->host.frames;
    uint32_t kind = day->event.kind;
    if (kind == VB_OVERDRAWS)
        budget += day->host.overdraft;
    if (kind != VB_UNCOUNTS && kind != VB_TAKES_OVER &&
        vb_host_owed(day->seats, day->count) > (most > budget ? most : budget))
        fail(day, "more is lent than there is");
    for (size_t i = 0; i < day->count; i++)
        if (guest_uses(&day->guests[i]) > vb_seat_lent(&day->seats[i]))
            fail(day, "a guest uses more than it is lent");
}

static void note_effect(const struct day *day, const VbSeat *before, VbHost host)
{
    VbSeat seats[PLACES];
    VbHostEvent nothing = {.kind = VB_WANTS, .guest = day->count};
    memcpy(seats, before, sizeof seats);
    vb_host_step(&host, seats, day->count, &nothing);
    bool same = host.frames == day->host.frames;
    for (size_t i = 0; i < day->count; i++)
        same = same && same_seat(&seats[i], &day->seats[i]);
    effects[day->event.kind] += !same;
}

/* ---- days */

static void begin(struct day *day, unsigned long long number)
{
    memset(day, 0, sizeof *day);
    day->count = 1 + chance(PLACES);
    day->number = number;
    day->odd = number % 8 == 0;
    day->host.frames = day->twin.frames = 40 + chance(160);
    day->host.overdraft = day->twin.overdraft = chance(4) ? chance(60) : 0;
    for (size_t i = 0; i < PLACES; i++)
        guest_arrive(&day->guests[i], 0, 0);
}

static void play(struct day *day)
{
    VbSeat before[PLACES];
    VbHost host = day->host;
    for (size_t i = 0; day->odd && i < day->count; i++)
        if (chance(8) == 0)
            day->seats[i] = day->twins[i] = odd_seat();
    memcpy(before, day->seats, sizeof before);
    day->event = any_event(day);
    if (vb_host_step(&day->host, day->seats, day->count, &day->event) != VB_OK ||
        reference_host_step(&day->twin, day->twins, day->count, &day->event) != VB_OK)
        fail(day, "an event is refused");
    check_same(day, &day->twin, day->twins, "the plain implementation leaves something else");
    check_happens(day, host, before);
    check_readers(day);
    note_effect(day, before, host);
    if (day->odd)
        return;
    check_settled(day);
    follow(day, before);
    check_laws(day, before);
    for (size_t i = 0; i < day->count; i++) {
        guest_send(&day->guests[i], &day->seats[i]);
        guest_live(&day->guests[i]);
    }
}

void check_steps(unsigned long long steps)
{
    struct day day;
    for (unsigned long long i = 0; i < steps; i++) {
        if (i % DAY == 0)
            begin(&day, i / DAY);
        play(&day);
    }
    printf("seats: %llu random events, with an effect:", steps);
    for (uint32_t kind = VB_HEARS; kind <= VB_DEFERS; kind++)
        printf(" %llu", effects[kind]);
    puts("");
    /* Grants and targets are what each step makes by itself. */
    for (uint32_t kind = VB_HEARS; kind <= VB_DEFERS; kind++)
        if (kind != VB_GRANTS && kind != VB_TARGETS && effects[kind] < steps / RARE)
            fail(&day, "an event is too rare");
    if (are_reliefs_rare(steps / RARE))
        fail(&day, "a relief is too rare");
}
