/* Who is helped on a host that stands still: worked out by hand from vb_host.h, and at random
 * beside the plain implementation. */
#include "guests.h"
#include <string.h>

enum { GUESTS = 4 };

/* 40 pages are lent to each of the first three, which wait for 20 more in a reset, for 40 to come,
 * and for 4 in a deflate; and 60 to the last one, which has given what its target says. */
static const VbSeat seats_of_four[GUESTS] = {
    {60, 20, 20, 20, 0, 20, 1, 0, 0, 2, 1, 0, 3, 0, 0, 0},
    {80, 40, 80, 80, 0, 40, 2, 0, 0, 1, 0, 0, 5, 0, 0, 0},
    {50, 10, 10, 10, 0, 4, 0, 0, 0, 3, 2, 0, 7, 0, 0, 0},
    {90, 30, 30, 30, 0, 0, 0, 0, 0, 1, 1, 0, 0, 0, 0, 0},
};

/* Who is preferred: nobody is a place past the end; and what is due. */
static const struct {
    const char *what;
    size_t preferred;
    uint32_t overdraft;
    VbStand stand;
    VbLook look;
    VbRelief relief;
} reliefs[] = {
    {"it moved less than a second ago", 4, 4, {3, 180, 1000, 1, 3, 500}, {1999, 7, 2, 0}, {0, 0}},
    {"who waits first proceeds alone", 4, 4, {3, 180, 1000, 1, 3, 500}, {2000, 7, 2, 0}, {11, 2}},
    {"and from the overdraft", 2, 4, {3, 180, 1000, 1, 3, 500}, {2000, 7, 2, 0}, {3, 2}},
    {"which has too little", 2, 3, {3, 180, 1000, 1, 3, 500}, {2000, 7, 2, 0}, {0, 0}},
    {"another was preferred", 0, 4, {3, 180, 1000, 1, 3, 500}, {2000, 7, 2, 0}, {11, 2}},
    {"nobody is alone where none is short",
     2,
     4,
     {3, 180, 1000, 1, 3, 500},
     {2000, 0, 2, 0},
     {11, 4}},
    {"but is lent from the overdraft", 4, 4, {3, 180, 1000, 1, 3, 500}, {2000, 0, 2, 0}, {3, 2}},
    {"the host is patient", 2, 3, {3, 180, 1000, 1, 3, 500}, {2499, 7, 2, 0}, {0, 0}},
    {"the host isn't patient any longer",
     4,
     4,
     {3, 180, 1000, 1, 3, 500},
     {2500, 7, 2, 0},
     {12, 0}},
    {"though all moved just now", 4, 4, {3, 180, 2499, 1, 3, 500}, {2500, 7, 2, 0}, {12, 0}},
    {"it is preferred, and isn't first", 0, 4, {3, 180, 1000, 1, 3, 500}, {2500, 7, 2, 0}, {11, 4}},
    {"a guest is awaited", 4, 4, {3, 180, 1000, 1, 3, 500}, {9000, 7, 2, 1}, {0, 0}},
    {"nobody waits: none is preferred", 1, 4, {0, 180, 1000, 0, 0, 500}, {2000, 7, 2, 0}, {11, 4}},
    {"nobody waits, nor is preferred", 4, 4, {0, 180, 1000, 0, 0, 500}, {2000, 7, 2, 0}, {0, 0}},
    {"the greatest times",
     4,
     4,
     {3, 180, UINT64_MAX, 1, 3, UINT64_MAX},
     {UINT64_MAX, 7, UINT32_MAX, 0},
     {0, 0}},
};

static bool same_relief(VbRelief one, VbRelief other)
{
    return one.kind == other.kind && one.guest == other.guest;
}

static void check_due(void)
{
    for (size_t i = 0; i < sizeof reliefs / sizeof *reliefs; i++) {
        VbHost host = {180, reliefs[i].overdraft};
        VbSeat seats[GUESTS];
        memcpy(seats, seats_of_four, sizeof seats);
        if (reliefs[i].preferred < GUESTS)
            seats[reliefs[i].preferred].preferred = 1;
        VbRelief due = vb_host_relief(&host, seats, GUESTS, &reliefs[i].stand, &reliefs[i].look);
        expect(same_relief(due, reliefs[i].relief), reliefs[i].what);
    }
}

/* Who waits to come alone keeps nobody waiting, also after a guest that waits in a deflate. */
static void check_nobody_after(void)
{
    const VbSeat seats[] = {seats_of_four[0], seats_of_four[2]};
    const VbHost host = {180, 0};
    const VbStand stand = {2, 80, 2000, 1, 3, 500};
    const VbLook look = {.time = 2999, .missing = 7, .patience = 2};
    VbRelief due = vb_host_relief(&host, seats, 2, &stand, &look);
    expect(due.kind == 0, "there is nobody to let pass");
}

static void check_stands(void)
{
    VbSeat seats[GUESTS];
    VbStand none = {0}, stand = {3, 180, 1000, 1, 3, 500};
    memcpy(seats, seats_of_four, sizeof seats);
    VbStand first = vb_host_stand(seats, GUESTS, &none, 1000);
    expect(first.first == 3 && first.lent == 180 && first.since == 1000, "who waits, what is lent");
    expect(first.head == 1 && first.turn == 3 && first.head_since == 1000, "who is at the head");
    VbStand same = vb_host_stand(seats, GUESTS, &stand, 9000);
    expect(same.since == 1000 && same.head_since == 500, "nothing has moved");
    seats[3].ballooned = 29;
    VbStand moved = vb_host_stand(seats, GUESTS, &stand, 9000);
    expect(moved.since == 9000 && moved.head_since == 500, "a page was lent");
    seats[0].turn = 4;
    VbStand again = vb_host_stand(seats, GUESTS, &stand, 9000);
    expect(again.head == 1 && again.turn == 4 && again.head_since == 9000, "it waits once more");
    seats[0].deferred = 1, seats[0].turn = 9;
    VbStand passed = vb_host_stand(seats, GUESTS, &stand, 9000);
    expect(passed.head == 2 && passed.turn == 5 && passed.head_since == 9000, "another is there");
    VbStand empty = vb_host_stand(seats + 3, 1, &stand, 9000);
    expect(empty.first == 0 && empty.lent == 61 && empty.head == 0 && empty.turn == 0,
           "none waits");
}

void check_relief(void)
{
    check_due();
    check_nobody_after();
    check_stands();
}

/* How often each event was due, and nothing. */
static unsigned long long due_events[VB_DEFERS + 1];

bool are_reliefs_rare(unsigned long long least)
{
    return due_events[0] < least || due_events[VB_OVERDRAWS] < least ||
           due_events[VB_PREFERS] < least || due_events[VB_DEFERS] < least;
}

bool is_relieved_alike(const VbHost *host, const VbSeat *seats, size_t count)
{
    uint64_t now = chance(9) ? 5000 + chance(3) : any();
    VbStand any_stand = {chance(4),
                         vb_host_owed(seats, count) + chance(2),
                         now - 999 - chance(3),
                         chance(4),
                         chance(3),
                         now - chance(4000)};
    VbStand stand = vb_host_stand(seats, count, &any_stand, now);
    VbStand beside = reference_host_stand(seats, count, &any_stand, now);
    bool is_same = !memcmp(&stand, &beside, sizeof stand);
    if (chance(4))
        stand.since = any_stand.since, stand.head_since = any_stand.head_since;
    if (chance(16) == 0)
        stand.first = chance(9), stand.head = chance(9);
    VbLook look = {now, chance(2), chance(4), chance(8) == 0};
    VbRelief relief = reference_host_relief(host, seats, count, &stand, &look);
    due_events[relief.kind]++;
    return is_same && same_relief(vb_host_relief(host, seats, count, &stand, &look), relief);
}
