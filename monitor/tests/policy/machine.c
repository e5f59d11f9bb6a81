/* The budget of guests on a machine with other work, by pencil, in pages; and random machines
 * beside the plain implementation. */
#include "policy.h"
#include <inttypes.h>
#include <stdio.h>
#include <stdlib.h>

/* Guests hold 2,000 of 3,000; 2,500 are available, of which 1,000 are to stay so. So guests may
 * hold 3,500. */
#define CALM .budget = 3000, .most = 4000, .least = 200, .keep = 1000, .held = 2000
#define USUAL CALM, .available = 2500, .step = 100

static const struct row {
    const char *what;
    VbMachine machine;
    uint32_t budget;
} rows[] = {
    {"it rises by a step", {USUAL}, 3100},
    {"what guests take is no longer available",
     {.budget = 3000, .most = 4000, .held = 3000, .keep = 1000, .available = 1500, .step = 100},
     3100},
    {"a step has all the room", {CALM, .available = 2100, .step = 100}, 3100},
    {"and one page less than that", {CALM, .available = 2099, .step = 100}, 3000},
    {"nothing needs to change", {CALM, .available = 2000, .step = 100}, 3000},
    {"it falls at once, by one page", {CALM, .available = 1999, .step = 100}, 2999},
    {"and by all that is missing", {CALM, .available = 0, .step = 100}, 1000},
    {"not below the least",
     {.budget = 3000, .most = 4000, .least = 200, .keep = 5000, .held = 2000, .step = 100},
     200},
    {"which it has at once", {.budget = 5, .most = 4000, .least = 200, .step = 1}, 200},
    {"a most below the least counts",
     {.budget = 5, .most = 150, .least = 200, .available = 9, .step = 1},
     150},
    {"to the most, by less than a step",
     {.budget = 3950, .most = 4000, .held = 2000, .available = 2000, .step = 100},
     4000},
    {"no further", {.budget = 4000, .most = 4000, .available = 9000, .step = 100}, 4000},
    {"a most that was lowered", {.budget = 4000, .most = 10, .available = 9000, .step = 100}, 10},
    {"no step: never higher", {CALM, .available = 2500}, 3000},
    {"pressed, it falls by a step", {USUAL, .pressed = 1}, 2900},
    {"whatever number says so", {USUAL, .pressed = UINT32_MAX}, 2900},
    {"further where less is left", {CALM, .available = 1500, .step = 100, .pressed = 1}, 2500},
    {"not below the least, pressed",
     {.budget = 250, .most = 4000, .least = 200, .available = 9000, .step = 100, .pressed = 1},
     200},
    {"nor below nothing",
     {.budget = 50, .most = 4000, .available = 9000, .step = 100, .pressed = 1},
     0},
    {"sums of more than 32 bits",
     {UINT32_MAX - 5, UINT32_MAX, 0, 7, UINT32_MAX, UINT32_MAX, 9, 0},
     UINT32_MAX},
};

static void demand(const char *what, uint32_t is, uint32_t wanted)
{
    if (is == wanted)
        return;
    fprintf(stderr, "policy: machine: %s: %" PRIu32 ", not %" PRIu32 "\n", what, is, wanted);
    exit(1);
}

void check_machine(void)
{
    for (const struct row *row = rows; row < rows + sizeof rows / sizeof *rows; row++)
        demand(row->what, vb_policy_budget(&row->machine), row->budget);
}

static uint32_t any_pages(void)
{
    static const uint32_t least[] = {0, 0, 0, 8, UINT32_MAX - 12};
    return least[policy_chance(5)] + policy_chance(12);
}

void check_machine_chance(unsigned long long machines)
{
    unsigned long long moves[3] = {0};
    for (unsigned long long i = 0; i < machines; i++) {
        VbMachine it = {any_pages(), any_pages(), any_pages(),       any_pages(),
                        any_pages(), any_pages(), policy_chance(12), policy_chance(2)};
        uint32_t budget = vb_policy_budget(&it);
        demand("the plain implementation", reference_policy_budget(&it), budget);
        moves[budget < it.budget ? 0 : budget > it.budget ? 1 : 2]++;
    }
    printf("policy: %llu random machines: in %llu the budget falls, in %llu it rises\n", machines,
           moves[0], moves[1]);
    for (unsigned i = 0; i < 3; i++)
        demand("a kind is too rare", moves[i] < machines / 20, 0);
}
