/* Seats that no events need lead to: who waits first, which orders are due, which targets are
 * possible, what is refused, and the largest numbers. */
#include "seats.h"
#include <stddef.h>
#include <string.h>

/* ---- who waits first: by lines, then turns, then places */

static const struct {
    const char *what;
    struct {
        uint32_t held, line;
        uint64_t turn;
        uint32_t deferred;
    } seats[3];
    size_t first;
} lines[] = {
    {"nobody waits", {{0, 0, 1, 0}, {0, 0, 1, 0}, {0, 0, 1, 0}}, SIZE_MAX},
    {"one waits", {{0, 0, 0, 0}, {0, 0, 0, 0}, {1, 2, 9, 0}}, 2},
    {"a lower turn", {{1, 0, 3, 0}, {1, 0, 2, 0}, {1, 0, 4, 0}}, 1},
    {"the lower place of one turn", {{0, 0, 2, 0}, {1, 0, 2, 0}, {1, 0, 2, 0}}, 1},
    {"deflates before resets", {{1, 1, 1, 0}, {1, 0, 9, 0}, {1, 1, 2, 0}}, 1},
    {"resets before arrivals", {{1, 2, 1, 0}, {1, 2, 2, 0}, {1, 1, 9, 0}}, 2},
    {"any other line is that of arrivals", {{1, UINT32_MAX, 2, 0}, {1, 2, 3, 0}, {1, 3, 1, 0}}, 2},
    {"the last turn of a line", {{1, 1, 0, 0}, {1, 0, UINT64_MAX, 0}, {1, 1, 0, 0}}, 1},
    {"one that lets others pass waits in the last line",
     {{1, 1, 1, 1}, {1, 2, 3, 0}, {1, 2, 2, 0}},
     0},
    {"and after all others by its turn", {{1, 1, 4, 1}, {1, 2, 3, 0}, {0, 0, 0, 0}}, 1},
    {"and after those of the lines before", {{1, 0, 1, 7}, {0, 0, 0, 0}, {1, 1, 9, 0}}, 2},
};

void check_lines(void)
{
    for (size_t i = 0; i < sizeof lines / sizeof *lines; i++) {
        VbSeat seats[3];
        memset(seats, 0, sizeof seats);
        for (size_t place = 0; place < 3; place++) {
            seats[place].held = lines[i].seats[place].held;
            seats[place].line = lines[i].seats[place].line;
            seats[place].turn = lines[i].seats[place].turn;
            seats[place].deferred = lines[i].seats[place].deferred;
        }
        expect(vb_host_first(seats, 3) == lines[i].first, lines[i].what);
    }
    expect(vb_host_first(NULL, 0) == SIZE_MAX, "nobody is there");
}

/* ---- orders, and what a seat says */

static const struct {
    const char *what;
    VbReport report;
    uint32_t target, grant;
} orders[] = {
    {"all is received", {20, 30, 30, 0, 0, 0, 4, 6, 0}, 0, 0},
    {"an older target", {20, 30, 30, 0, 0, 0, 3, 6, 0}, 1, 0},
    {"a target of an earlier lender", {20, 30, 30, 0, 0, 0, 5, 6, 0}, 1, 0},
    {"another target of this number", {20, 31, 29, 0, 0, 0, 4, 6, 0}, 0, 0},
    {"it still holds what was granted", {20, 30, 30, 2, 0, 0, 4, 6, 0}, 0, 1},
    {"an older deflate", {20, 30, 30, 2, 0, 0, 4, 5, 0}, 0, 0},
    {"the deflate that waits", {20, 30, 30, 2, 0, 0, 3, 7, 0}, 1, 0},
};

/* Each byte of two seats counts, but those after the last field. */
static void check_same_seats(void)
{
    for (size_t i = 0; i < sizeof(VbSeat); i++) {
        VbSeat one, other;
        bool counts = i < offsetof(VbSeat, deferred) + sizeof one.deferred;
        memset(&one, 7, sizeof one), memset(&other, 7, sizeof other);
        ((unsigned char *)&other)[i] = 9;
        expect(vb_seat_same(&one, &other) == !counts, "a field of a seat counts");
    }
}

void check_orders(void)
{
    check_same_seats();
    VbSeat seat = {.pages = 60, .ballooned = 25, .least_target = 20, .target = 30, .held = 8};
    seat.target_number = 4;
    seat.deflates = 7;
    seat.granted = 6;
    for (size_t i = 0; i < sizeof orders / sizeof *orders; i++) {
        expect(vb_seat_due_target(&seat, &orders[i].report) == orders[i].target, orders[i].what);
        expect(vb_seat_due_grant(&seat, &orders[i].report) == orders[i].grant, orders[i].what);
    }
    expect(vb_seat_lent(&seat) == 40 && vb_seat_waits(&seat) == 1, "40 are lent, and it waits");
    expect(vb_seat_asked(&seat) == 3, "of 8 pages 5 are lent already");
    seat.least_target = 17;
    expect(vb_seat_lent(&seat) == 43 && vb_seat_asked(&seat) == 0, "all 8 are lent already");
    seat.held = 0;
    expect(vb_seat_waits(&seat) == 0 && vb_seat_asked(&seat) == 0, "it doesn't wait");
    seat.pages = 16;
    expect(vb_seat_lent(&seat) == 0, "more in its balloon than it has");
    seat.outside = 3;
    expect(vb_seat_lent(&seat) == 2, "with those outside");
    seat.pages = seat.outside = UINT32_MAX;
    expect(vb_seat_lent(&seat) == 2ull * UINT32_MAX - 17, "more than 32 bits say");
}

/* ---- targets */

/* A guest that was let in, and may take what it has above the pages that are wanted. */
static VbSeat guest(uint32_t pages, uint32_t ballooned, uint32_t wanted)
{
    VbSeat seat = {.pages = pages, .ballooned = ballooned, .least_target = ballooned};
    seat.target = ballooned;
    seat.wanted = wanted;
    seat.deflates = 1;
    seat.granted = 1;
    return seat;
}

/* Of four guests of 50 pages, 30 of them in each balloon, one holds a deflate or not, and the last
 * has no grant yet: their targets after a step. Each has another number once it is no longer 30. */
static const struct {
    const char *what;
    VbHostEvent event;
    size_t holder;
    uint32_t held, frames, targets[4];
} targets[] = {
    {"18 frames of room, in the order of places: 2, then 16",
     {.kind = VB_WANTS, .guest = 4},
     0,
     0,
     98,
     {28, 14, 30, 30}},
    {"10 of them to the guest of the event, then 2, then 6",
     {.kind = VB_TARGETS, .guest = 2},
     0,
     0,
     98,
     {28, 24, 20, 30}},
    {"no frame is left of what is waited for",
     {.kind = VB_TARGETS, .guest = 2},
     0,
     30,
     109,
     {30, 30, 30, 30}},
    {"a guest that waits has no room by its target; once it is granted, 5 frames are left",
     {.kind = VB_TARGETS, .guest = 1},
     1,
     30,
     115,
     {28, 10, 27, 30}},
};

void check_targets(void)
{
    for (size_t i = 0; i < sizeof targets / sizeof *targets; i++) {
        VbSeat seats[] = {guest(50, 30, 28), guest(50, 30, 10), guest(50, 30, 20),
                          guest(50, 30, 0)};
        VbHost host = {.frames = targets[i].frames, .overdraft = 50};
        VbSeat *holder = &seats[targets[i].holder];
        holder->held = targets[i].held;
        holder->turn = targets[i].held != 0;
        seats[3].granted = 0;
        expect(vb_host_step(&host, seats, 4, &targets[i].event) == VB_OK, targets[i].what);
        for (size_t place = 0; place < 4; place++) {
            uint32_t target = targets[i].targets[place];
            expect(seats[place].target == target, targets[i].what);
            expect(seats[place].target_number == (target != 30), targets[i].what);
        }
    }
}

/* ---- what is refused, and what has no effect */

/* Seats of which one could be granted, and has another target then. */
static void unsettle(VbSeat *seats)
{
    seats[0] = guest(50, 30, 10);
    seats[1] = guest(40, 20, 20);
    seats[1].held = 5;
    seats[1].deflates = 2;
    seats[1].turn = 3;
}

static void check_refusals(void)
{
    static const uint32_t kinds[] = {0, VB_DEFERS + 1, 256 + VB_WANTS, UINT32_MAX};
    VbSeat seats[2], before[2];
    unsettle(seats);
    unsettle(before);
    for (size_t i = 0; i < sizeof kinds / sizeof *kinds; i++) {
        VbHost host = {.frames = 60, .overdraft = 7};
        const VbHostEvent event = {.kind = kinds[i], .pages = 3, .frames = 9};
        expect(vb_host_step(&host, seats, 2, &event) == VB_BAD_ARGUMENT, "a kind that is none");
        expect(vb_host_happen(&host, seats, 2, &event) == VB_BAD_ARGUMENT, "nor alone");
        expect(same_seat(&seats[0], &before[0]) && same_seat(&seats[1], &before[1]),
               "a refusal leaves all seats");
        expect(host.frames == 60 && host.overdraft == 7, "a refusal leaves the budget");
    }
}

/* An event of no place has no effect, and what was possible already is done. */
static void check_nowhere(void)
{
    static const size_t places[] = {2, SIZE_MAX};
    for (uint32_t kind = VB_HEARS; kind < VB_BUDGET; kind++)
        for (size_t i = 0; i < 2; i++) {
            VbSeat seats[2];
            VbHost host = {.frames = 60, .overdraft = 7};
            const VbHostEvent event = {.kind = kind, .guest = places[i], .pages = 3, .frames = 9};
            unsettle(seats);
            expect(vb_host_step(&host, seats, 2, &event) == VB_OK, "no such place is no refusal");
            expect(host.frames == 60 && host.overdraft == 7, "the budget stays");
            expect(seats[1].granted == 2 && seats[1].ballooned == 15 && seats[1].target == 20,
                   "the deflate is granted");
            expect(seats[0].target == 15 && seats[0].target_number == 1,
                   "the target of the other falls by the 15 frames that are left");
        }
}

void check_refused(void)
{
    check_refusals();
    check_nowhere();
}

/* ---- the largest numbers */

static uint32_t step(VbHost *host, VbSeat *seats, VbHostEvent event)
{
    return vb_host_step(host, seats, 2, &event);
}

/* The last turn is given again, and the last number of a target stays, and so does the target. */
static void check_last(void)
{
    VbHost host = {.frames = 40};
    VbSeat seats[2] = {guest(50, 30, 30), guest(50, 30, 30)};
    seats[0].held = 1;
    seats[0].turn = UINT64_MAX;
    seats[1].target_number = UINT64_MAX;
    VbHostEvent event = {.kind = VB_HEARS, .guest = 1, .report = {30, 30, 30, 4, 0, 0, 0, 2, 0}};
    expect(step(&host, seats, event) == VB_OK && seats[1].turn == UINT64_MAX, "the last turn");
    expect(vb_host_first(seats, 2) == 0, "of one turn the lower place");
    expect(step(&host, seats, (VbHostEvent){.kind = VB_WANTS, .guest = 1, .pages = 35}) == VB_OK,
           "wanted");
    expect(seats[1].target == 30 && seats[1].least_target == 30, "no target without a number");
    expect(seats[1].target_number == UINT64_MAX && seats[1].wanted == 35, "the last number");
}

/* Sums of 33 bits: a budget, an overdraft, what is lent, and what two places have together. */
static void check_sums(void)
{
    VbHost host = {.frames = UINT32_MAX, .overdraft = UINT32_MAX - 1};
    VbSeat seats[2] = {guest(UINT32_MAX, 0, 0), guest(UINT32_MAX, UINT32_MAX, UINT32_MAX)};
    seats[1].held = UINT32_MAX;
    seats[1].turn = 1;
    VbHostEvent event = {.kind = VB_OVERDRAWS, .guest = 1};
    expect(step(&host, seats, event) == VB_OK && seats[1].held != 0, "a frame less");
    expect(vb_seat_asked(&seats[1]) == UINT32_MAX, "it asks for all");
    host.overdraft++;
    expect(step(&host, seats, event) == VB_OK && seats[1].held == 0, "just as many frames");
    expect(vb_host_owed(seats, 2) == 2ull * UINT32_MAX, "more is owed than 32 bits say");
    expect(vb_host_room(&host, seats, 2) == 0, "no room");
    expect(vb_host_owed(NULL, 0) == 0 && vb_host_room(&host, NULL, 0) == UINT32_MAX, "no guest");
    event = (VbHostEvent){.kind = VB_JOINS, .guest = 0, .added = 1};
    seats[0].pages = UINT32_MAX - 5;
    seats[1].pages = 6;
    expect(step(&host, seats, event) == VB_OK && seats[1].pages == 6, "2^32 pages together");
    seats[1].pages = 5;
    seats[1].outside = 1;
    expect(step(&host, seats, event) == VB_OK && seats[1].pages == 5, "a page of it is outside");
    seats[1].outside = 0;
    expect(step(&host, seats, event) == VB_OK && seats[1].pages == 0, "2^32 - 1 pages together");
    expect(seats[0].pages == UINT32_MAX, "they have joined");
}

/* One waits for 21 pages of its 60, of which 20 are lent already, and two give up to what is
 * wanted: with 131 frames nobody waits once both have, and with one less the first still does. */
static void check_least(void)
{
    VbSeat waits = guest(100, 60, 40), gives = guest(100, 60, 70), gave = guest(100, 60, 0);
    VbSeat seats[] = {waits, gives, gave};
    seats[0].held = 21, seats[0].turn = 1, seats[0].deflates++;
    seats[0].least_target = 40;
    expect(vb_host_least_budget(NULL, 0) == 0, "no guest");
    expect(vb_host_least_budget(seats, 1) == 61, "what it waits for");
    expect(vb_host_least_budget(seats + 1, 1) == 30, "less what is wanted");
    expect(vb_host_least_budget(seats + 2, 1) == 40, "less what it has given for good");
    seats[1].ballooned = 70, seats[1].least_target = seats[1].target = 70;
    for (uint32_t frames = 130; frames <= 131; frames++) {
        VbSeat then[] = {seats[0], seats[1], seats[2]};
        VbHost host = {0};
        VbHostEvent event = {.kind = VB_BUDGET, .frames = frames};
        expect(vb_host_least_budget(then, 3) == 131, "all together");
        expect(vb_host_step(&host, then, 3, &event) == VB_OK, "a budget");
        expect((then[0].held == 0) == (frames == 131), "to a page");
    }
    seats[1].uncounted = 1, seats[1].ballooned = seats[1].least_target = 0;
    seats[1].outside = 7;
    expect(vb_host_least_budget(seats + 1, 1) == 107, "all that it may have");
}

/* A guest that a later lender hasn't heard of: all its pages are lent, and stay so. */
static void check_unheard(void)
{
    VbHost host = {.frames = 90};
    VbSeat seats[2] = {{.pages = 50}, {.pages = 30}};
    expect(step(&host, seats, (VbHostEvent){.kind = VB_TARGETS}) == VB_OK, "a target");
    expect(vb_seat_lent(&seats[0]) == 50 && vb_host_owed(seats, 2) == 80, "all pages are lent");
    expect(seats[0].target_number == 0 && seats[1].target_number == 0, "no target is set");
}

/* More is taken away than there is; the first deflate of all is held at a takeover. */
static void check_less(void)
{
    VbHost host = {.frames = 0};
    VbSeat seats[2] = {guest(50, 30, 0), guest(50, 30, 0)};
    VbHostEvent event = {.kind = VB_HEARS, .report = {20, 30, 30, 0, 0, 0, 0, 1, UINT64_MAX}};
    expect(step(&host, seats, event) == VB_OK, "heard");
    expect(seats[0].pages == 0 && seats[0].ballooned == 20, "nothing is left but what is reported");
    event = (VbHostEvent){.kind = VB_TAKES_OVER, .guest = 1, .pages = 70};
    event.report = (VbReport){9, 7, 8, 6, 1, 0, 5, 0, 3};
    expect(step(&host, seats, event) == VB_OK && seats[1].pages == 70, "taken over");
    expect(seats[1].least_target == 7 && seats[1].target == 7, "the lower of both targets");
    expect(seats[1].granted == 0 && seats[1].turn == 1, "none was granted before");
}

/* Both wait, the second with a target that it hasn't reached: the first is granted. */
static void check_overdraft(void)
{
    VbHost host = {.frames = 40, .overdraft = 5};
    VbSeat seats[2] = {guest(50, 30, 30), guest(50, 30, 40)};
    seats[0].held = 5;
    seats[1].held = 3;
    seats[0].turn = 1;
    seats[1].turn = 2;
    seats[1].target = 40;
    expect(step(&host, seats, (VbHostEvent){.kind = VB_OVERDRAWS, .guest = 1}) == VB_OK &&
               seats[0].held == 5 && seats[1].held == 3,
           "no overdraft for the second that waits");
    expect(step(&host, seats, (VbHostEvent){.kind = VB_OVERDRAWS, .guest = 0}) == VB_OK &&
               seats[0].held == 0 && seats[1].held == 3,
           "all wait");
}

void check_largest(void)
{
    check_overdraft();
    check_last();
    check_sums();
    check_unheard();
    check_less();
    check_least();
}
