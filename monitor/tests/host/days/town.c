/* All guests of a day: what each works, what they have together, and how the day ends. The
 * environment says which day it is: DAY is its number, GUESTS how many there are, BUDGET the MiB
 * for all, SECONDS how long it is, FOLDER where the lender finds them; REBOOTS how many of them
 * reboot, BEYOND by how many MiB what they want passes what fits, SLOW how many times as long as
 * usually each step takes, KILLED whether lenders end, OVERDRAFT how many MiB may be lent above the
 * budget, MOVES whether the working set moves from guest to guest, in place of works, LOSES of how
 * many messages one finds no room, WEIGHT what weight the last guest has. */
#define _GNU_SOURCE
#include "days.h"

#include <stdio.h>
#include <stdlib.h>
#include <unistd.h>

/* Pages of a MiB; MiB of each guest, and what its kernel and kept bytes take; what a work fills, at
 * least and at most, and what one that reboots fills at most; what each guest leaves of the budget.
 * As the guests of the runs with Linux. */
enum {
    MIB = 256,
    MEMORY = 244,
    OWN = 60,
    LEAST_FILL = 20,
    MOST_FILL = 150,
    REBOOTS_FILL = 90,
    LEFT = 15
};

/* Seconds after which a deflate, and a new life, waits for good, and a target is lost. */
enum { DEFLATE_WAITS = 30, RESET_WAITS = 300, HEARS = 8 };

static void print_guest(const struct guest *guest)
{
    const struct lending_message *its = &guest->report;
    printf("guest-%u has %u pages, uses %u, caches %u, balloon %u, in it %u, target %u, waits for "
           "%u%s, wants %u, works %llu%s%s\n",
           guest->number + 1, guest->pages, guest->used, guest->cached, guest->balloon,
           its->ballooned, guest->target, its->held_pages,
           guest->reset.waits ? " and a new life" : "", guest->wants,
           (unsigned long long)guest->works, guest->out_of_memory ? ", out of memory" : "",
           its->ready ? "" : ", boots");
}

void town_ends(const char *fault, const struct guest *guest)
{
    uint64_t works = 0;
    for (unsigned i = 0; i < day->size; i++)
        works += day->guests[i].works;
    if (fault)
        printf("fault: guest-%u %s at %.3f seconds\n", guest->number + 1, fault,
               (double)day->now / SECOND);
    printf("works %llu waited %lld longest %lld lenders %llu\n", (unsigned long long)works,
           (long long)day->waited / MILLISECOND, (long long)day->longest / MILLISECOND,
           (unsigned long long)day->lenders);
    for (unsigned i = 0; i < day->size && fault; i++)
        print_guest(&day->guests[i]);
    fflush(stdout);
    _exit(fault != NULL);
}

/* A work is done, after a while: its pages are free again; or all are, as the guest reboots. */
static void end_work(struct guest *guest)
{
    guest->used -= guest->filled;
    day->left += guest->reboots ? 0 : guest->filled;
    guest->filled = 0;
    guest->works++;
    if (!guest->reboots) {
        later(guest, work_begins, chance(0, SECOND));
        return;
    }
    forget(guest);
    process_reset(guest);
}

void work_is_filled(struct guest *guest)
{
    later(guest, end_work, chance(0, 5 * SECOND / 2));
}

void work_begins(struct guest *guest)
{
    uint32_t pages = chance(LEAST_FILL, guest->reboots ? REBOOTS_FILL : MOST_FILL) * MIB;
    if (!guest->reboots && pages > day->left) {
        later(guest, work_begins, chance(0, SECOND / 5));
        return;
    }
    day->left -= guest->reboots ? 0 : pages;
    driver_fills(guest, pages);
}

/* Whether it waits for too long. */
static void look_at(const struct guest *guest, const struct wait *wait, int64_t most,
                    const char *fault)
{
    int64_t waits = wait->waits ? day->now - wait->since : 0,
            passed = day->now - day->seen[guest->number];
    day->longest = waits > day->longest ? waits : day->longest;
    day->waited += wait->waits ? passed : 0;
    day->seen[guest->number] = day->now;
    if (waits > most * SECOND)
        town_ends(fault, guest);
}

/* What all guests have. */
static uint64_t held(void)
{
    uint64_t pages = 0;
    for (unsigned i = 0; i < day->size; i++)
        pages += day->guests[i].pages - day->guests[i].report.ballooned;
    return pages;
}

/* Whether it is still to give pages: it doesn't wait, and has fewer in its balloon than it was told
 * last. */
static bool still_gives(const struct guest *guest)
{
    bool waits = guest->held.waits || guest->reset.waits;
    return !waits && guest->report.ballooned < guest->told;
}

/* Whether its deflate goes deeper than each target that its driver may obey, as far as the lender
 * knows: then its grant lends pages. */
static bool goes_deeper(const struct guest *guest)
{
    return guest->report.ballooned < guest->least_told + guest->report.held_pages;
}

void town_is_heard(struct guest *guest, const struct lending_message *report)
{
    if (report->target == guest->told && report->obeyed == guest->told + UINT64_C(1))
        guest->least_told = guest->told;
}

void town_hears(struct guest *guest, const struct lending_message *order)
{
    if (order->kind == ORDER_TARGET && order->target != guest->told)
        guest->told = order->target, guest->told_at = day->now;
    guest->least_told = smaller(guest->least_told, guest->told);
    if (order->kind != ORDER_GRANT || order->wait == guest->granted)
        return;
    guest->granted = order->wait;
    bool overdraws = held() + guest->report.held_pages > day->budget && goes_deeper(guest);
    for (unsigned i = 0; i < day->size && overdraws; i++)
        if (guest != &day->guests[i] && still_gives(&day->guests[i]))
            town_ends("gets pages above the budget that others still give", guest);
}

void town_looks(void)
{
    if (held() > day->budget + (uint64_t)day->plan.overdraft * MIB)
        town_ends("is the first of all, which have more than the budget", day->guests);
    for (unsigned i = 0; i < day->size; i++) {
        const struct guest *guest = &day->guests[i];
        if (guest->target != guest->told && day->now - guest->told_at > HEARS * (int64_t)SECOND)
            town_ends("hasn't heard its target", guest);
        if (guest->reset.waits)
            look_at(guest, &guest->reset, RESET_WAITS, "waits for a new life");
        else
            look_at(guest, &guest->held, DEFLATE_WAITS, "waits for a deflate");
    }
    if (day->plan.moves > 0)
        moves_look();
    if (day->now >= day->plan.seconds * (int64_t)SECOND)
        town_ends(NULL, NULL);
}

/* All guests are there before the lender is, each with its part of the budget. What fits is what
 * they use with what each leaves, and all memory of those that reboot: each has all of that for a
 * while. */
static void __attribute__((constructor)) begin(int count, char **words)
{
    (void)count;
    if (!day_begins(words))
        return;
    unsigned size = day->size = day->plan.guests;
    bool moves = day->plan.moves > 0;
    day->budget = day->plan.budget * MIB;
    unsigned reboots = day->plan.reboots;
    day->left =
        day->budget + (day->plan.beyond - (size - reboots) * (OWN + LEFT) - reboots * MEMORY) * MIB;
    for (unsigned i = 0; i < size; i++) {
        struct guest *guest = &day->guests[i];
        *guest = (struct guest){.number = i,
                                .pages = MEMORY * MIB,
                                .used = OWN * MIB,
                                .reboots = i + day->plan.reboots >= size};
        guest->balloon = guest->told = guest->least_told = guest->pages - day->budget / size;
        process_begins(guest, getenv("FOLDER"));
        if (!moves)
            later(guest, work_begins, chance(0, SECOND));
    }
    if (moves)
        moves_begin();
}
