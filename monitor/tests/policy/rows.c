/* Decisions over three guests of 1000 pages: what each tells in its balloon then, available and
 * free; by pencil. Where nothing else is said there is no floor, no slack and no reserve, a guest
 * is poor that has less than 35 percent of its part, and one page stays free in each. */
#include "policy.h"
#include <stdio.h>
#include <stdlib.h>
#include <string.h>

enum { GUESTS = 3 };

#define BOUND(then, has, unused, bound)                                                            \
    .pages = 1000, .ballooned = then, .ballooned_then = then, .available = has, .free = unused,    \
    .most = bound, .contact = VB_CONTACT_HEARD
#define HEARD(then, has, unused) BOUND(then, has, unused, UINT32_MAX)
#define WAITS(has, wants)                                                                          \
    .pages = 1000, .ballooned = 1000 - (has), .lent = has, .asked = wants, .most = UINT32_MAX,     \
    .contact = VB_CONTACT_HEARD, .strict = 1

static const struct row {
    const char *what;
    VbPolicyBudget budget;
    VbFigures figures[GUESTS];
    uint32_t targets[GUESTS];
    uint32_t tier;
    uint64_t missing;
} rows[] = {
    {"nothing is missing, and nobody is asked",
     {3000, 0, 0, 0, 35},
     {{HEARD(0, 500, 300)}, {HEARD(0, 500, 300)}, {HEARD(0, 300, 300)}},
     {0, 0, 0},
     VB_TIER_NONE,
     0},
    {"of 897 unused pages 600 are missing: each keeps 99",
     {2400, 0, 0, 0, 35},
     {{HEARD(0, 500, 300)}, {HEARD(0, 500, 300)}, {HEARD(0, 300, 300)}},
     {200, 200, 200},
     VB_TIER_UNUSED,
     0},
    {"1200 are missing: of the cache of 201, 201 and 1 pages the first two keep 49",
     {1800, 0, 0, 0, 35},
     {{HEARD(0, 500, 300)}, {HEARD(0, 500, 300)}, {HEARD(0, 300, 300)}},
     {451, 451, 299},
     VB_TIER_CACHE,
     0},
    {"by weight: for less than 60 pages a unit the first keeps 179 and the others 59",
     {2400, 0, 0, 0, 35},
     {{HEARD(0, 500, 300), .weight = 3}, {HEARD(0, 500, 300)}, {HEARD(0, 300, 300)}},
     {120, 240, 240},
     VB_TIER_UNUSED,
     0},
    {"the lower class gives its unused memory first",
     {2400, 0, 0, 0, 35},
     {{HEARD(0, 500, 300), .priority = 1}, {HEARD(0, 500, 300)}, {HEARD(0, 300, 300)}},
     {2, 299, 299},
     VB_TIER_UNUSED,
     0},
    {"targets so far serve: nobody has less than 35 percent of 99 pages, and they are enough",
     {2400, 0, 0, 0, 35},
     {{HEARD(0, 500, 300), .target = 100},
      {HEARD(0, 500, 300), .target = 250},
      {HEARD(0, 300, 300), .target = 250}},
     {100, 250, 250},
     VB_TIER_UNUSED,
     0},
    {"the last has 34 left, and gets its part; of the others the first is farther from its own",
     {2400, 0, 0, 0, 35},
     {{HEARD(0, 500, 300), .target = 100},
      {HEARD(0, 500, 300), .target = 235},
      {HEARD(0, 300, 300), .target = 265}},
     {165, 235, 200},
     VB_TIER_UNUSED,
     0},
    {"one that has used all that was left to it gets its part back from both others",
     {2400, 0, 0, 0, 35},
     {{HEARD(200, 0, 0), .target = 200},
      {HEARD(200, 300, 300), .target = 200},
      {HEARD(200, 300, 300), .target = 200}},
     {0, 300, 300},
     VB_TIER_UNUSED,
     0},
    {"a pressed one is asked for no more than the 200 that it has given, and gets its part at once",
     {2400, 0, 0, 0, 35},
     {{HEARD(200, 500, 300), .target = 200, .pressed = 1},
      {HEARD(200, 500, 300), .target = 200},
      {HEARD(200, 500, 300), .target = 200}},
     {1, 300, 300},
     VB_TIER_UNUSED,
     0},
    {"what the first has above its most is asked of it, though nothing is missing",
     {3000, 0, 0, 0, 35},
     {{BOUND(0, 500, 300, 900)}, {HEARD(0, 500, 300)}, {HEARD(0, 300, 300)}},
     {100, 0, 0},
     VB_TIER_NONE,
     0},
    {"its least pages stay to the first, and 300 are of cache",
     {2400, 0, 0, 0, 35},
     {{HEARD(0, 500, 300), .least = 1000}, {HEARD(0, 500, 300)}, {HEARD(0, 300, 300)}},
     {0, 301, 299},
     VB_TIER_CACHE,
     0},
    {"one that waits gives the 500 that stay in its balloon, but for its part of 99",
     {2000, 0, 0, 0, 35},
     {{WAITS(400, 100)}, {HEARD(0, 600, 600)}, {HEARD(0, 0, 0)}},
     {451, 550, 0},
     VB_TIER_UNUSED,
     0},
    {"short by 700: all stay that are within the slack of all that they can give",
     {1000, 0, 10, 0, 35},
     {{HEARD(0, 500, 300), .target = 495},
      {HEARD(0, 500, 300), .target = 510},
      {HEARD(0, 300, 300), .target = 300}},
     {495, 510, 300},
     VB_TIER_SHORT,
     700},
    {"short by 700: one is farther from it, and each is asked for all",
     {1000, 0, 10, 0, 35},
     {{HEARD(0, 500, 300), .target = 489},
      {HEARD(0, 500, 300), .target = 510},
      {HEARD(0, 300, 300), .target = 300}},
     {500, 500, 300},
     VB_TIER_SHORT,
     700},
    {"short by 560: for the first that waits floors go down to a quarter; the other keeps what it "
     "has",
     {2420, 80, 10, 0, 35},
     {{WAITS(400, 600), .first = 1}, {HEARD(0, 100, 100)}, {WAITS(500, 500)}},
     {0, 80, 500},
     VB_TIER_SHORT,
     560},
    {"of 80 and 30 pages above a quarter of the floor and above its least each keeps 15",
     {2920, 80, 10, 0, 35},
     {{WAITS(400, 600), .first = 1},
      {HEARD(0, 100, 100), .pressed = 1},
      {HEARD(0, 90, 90), .least = 970}},
     {0, 65, 15},
     VB_TIER_SHORT,
     50},
    {"silent ones count for what they hold and have given, and give that",
     {900, 0, 0, 0, 35},
     {{.pages = 1000,
       .held = 300,
       .ballooned = 100,
       .most = UINT32_MAX,
       .contact = VB_CONTACT_SILENT},
      {.pages = 1000,
       .held = 500,
       .ballooned = 100,
       .most = UINT32_MAX,
       .contact = VB_CONTACT_SILENT},
      {.held = 100, .most = UINT32_MAX, .contact = VB_CONTACT_AWAY}},
     {100, 100, 0},
     VB_TIER_UNUSED,
     0},
    {"ten percent of its pages are the reserve of each: 400, 400 and 200 pages before that",
     {2000, 0, 0, 10, 35},
     {{HEARD(0, 500, 9)}, {HEARD(0, 500, 9)}, {HEARD(0, 300, 9)}},
     {400, 400, 200},
     VB_TIER_CACHE,
     0},
    {"60 more are of the reserves: each keeps 80 of 100",
     {1940, 0, 0, 10, 35},
     {{HEARD(0, 500, 9)}, {HEARD(0, 500, 9)}, {HEARD(0, 300, 9)}},
     {420, 420, 220},
     VB_TIER_RESERVE,
     0},
};

static void fail(const struct row *row, VbDecision is, const uint32_t *targets)
{
    fprintf(stderr, "policy: %s: code %u, tier %u, missing %llu, targets %u %u %u\n", row->what,
            is.code, is.tier, (unsigned long long)is.missing, targets[0], targets[1], targets[2]);
    exit(1);
}

void check_rows(void)
{
    VbPolicyRoom rooms[GUESTS];
    uint32_t targets[GUESTS];
    for (const struct row *row = rows; row < rows + sizeof rows / sizeof *rows; row++) {
        memset(targets, 0xff, sizeof targets);
        VbDecision is =
            vb_policy_decide(&row->budget, row->figures, GUESTS, rooms, GUESTS, targets, GUESTS);
        bool is_short = row->tier == VB_TIER_SHORT;
        if (is.code != (is_short ? VB_SHORT : VB_OK) || is.tier != row->tier ||
            is.missing != row->missing || memcmp(targets, row->targets, sizeof targets) != 0)
            fail(row, is, targets);
    }
}

void check_refused(void)
{
    VbFigures figures[2] = {{HEARD(0, 1, 1)}, {HEARD(0, 1, 1)}};
    VbPolicyBudget budget = {0, 0, 0, 0, 35};
    VbPolicyRoom rooms[2] = {{{0}, 0}, {{0}, 0}};
    uint32_t targets[2] = {7, 7};
    VbDecision one = vb_policy_decide(&budget, figures, 2, rooms, 1, targets, 2);
    VbDecision other = vb_policy_decide(&budget, figures, 2, rooms, 2, targets, 1);
    if (one.code != VB_BAD_ARGUMENT || other.code != VB_BAD_ARGUMENT || targets[0] != 7 ||
        targets[1] != 7 || one.tier != VB_TIER_NONE || one.missing != 0) {
        fprintf(stderr, "policy: another room isn't refused\n");
        exit(1);
    }
}
