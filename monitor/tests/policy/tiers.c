/* What one guest counts for and can give, by pencil: with a floor of 100, a slack of 20, and a
 * reserve of 10 percent. */
#include "policy.h"
#include <stdio.h>
#include <stdlib.h>
#include <string.h>

static const VbPolicyBudget budget = {0, 100, 20, 10, 35};

static const struct row {
    const char *what;
    VbFigures figures;
    VbTiers tiers;
} rows[] = {
    {"half of the floor stays free, and the floor available, with 100 pages of reserve",
     {.pages = 1000, .available = 500, .free = 300, .contact = VB_CONTACT_HEARD},
     {1000, 250, 300, 400, 420}},
    {"what was in its balloon then is unused",
     {.pages = 1000, .ballooned_then = 40, .available = 500, .free = 300, .contact = 2},
     {1000, 290, 340, 440, 460}},
    {"free memory beyond what is available doesn't count",
     {.pages = 1000, .available = 170, .free = 300, .contact = VB_CONTACT_HEARD},
     {1000, 0, 0, 70, 90}},
    {"more stays free of 100000 pages: a 512th",
     {.pages = 100000, .available = 30000, .free = 20000, .contact = VB_CONTACT_HEARD},
     {100000, 19805, 19900, 29900, 29920}},
    {"no more than its pages, whatever it says",
     {UINT32_MAX, 0, UINT32_MAX, UINT32_MAX, UINT32_MAX, UINT32_MAX, .contact = VB_CONTACT_HEARD},
     {UINT32_MAX, 3865470466u, 3865470466u, 4294967195u, 4294967215u}},
    {"no more than its pages, of which it has few",
     {.pages = 1000,
      .ballooned_then = UINT32_MAX,
      .available = UINT32_MAX,
      .free = UINT32_MAX,
      .contact = VB_CONTACT_HEARD},
     {1000, 800, 800, 900, 920}},
    {"paused: what it has given",
     {.pages = 1000,
      .ballooned = 60,
      .ballooned_then = 60,
      .available = 500,
      .free = 300,
      .contact = VB_CONTACT_HEARD,
      .paused = 1},
     {1000, 60, 60, 60, 60}},
    {"pressed: what it has given, and beyond that of its reserve alone",
     {.pages = 1000,
      .ballooned = 60,
      .ballooned_then = 60,
      .available = 500,
      .free = 300,
      .contact = VB_CONTACT_HEARD,
      .pressed = 1},
     {1000, 60, 60, 460, 480}},
    {"its least pages stay",
     {.pages = 1000, .available = 500, .free = 300, .least = 700, .contact = VB_CONTACT_HEARD},
     {1000, 250, 300, 300, 300}},
    {"a guest that starts gives none",
     {.pages = 1000, .ballooned = 60, .available = 500, .free = 300, .contact = 4},
     {1000, 0, 0, 0, 0}},
    {"a silent one",
     {.pages = 1000, .held = 300, .ballooned = 60, .available = 500, .free = 300, .contact = 1},
     {360, 60, 60, 60, 60}},
    {"one that has gone",
     {.pages = 1000, .held = 300, .ballooned = 60, .available = 500, .free = 300, .contact = 3},
     {300, 0, 0, 0, 0}},
    {"a strict one that waits",
     {.pages = 1000, .ballooned = 600, .lent = 400, .asked = 50, .strict = 1, .contact = 1},
     {1000, 550, 550, 550, 550}},
    {"a balloon that doesn't count",
     {.pages = 1000,
      .held = 300,
      .ballooned = 60,
      .available = 500,
      .free = 300,
      .uncounted = 9,
      .contact = VB_CONTACT_HEARD},
     {1000, 0, 0, 0, 0}},
    {"one that isn't strict doesn't wait",
     {.pages = 1000,
      .available = 500,
      .free = 300,
      .lent = 400,
      .asked = 50,
      .contact = VB_CONTACT_HEARD},
     {1000, 250, 300, 400, 420}},
};

/* What guests that wait take in the end: 300 of 1000 pages are in the balloon. */
static const struct want {
    uint32_t available, asked, most;
    uint16_t contact, wants;
} wants[] = {
    {0, 1, UINT32_MAX, VB_CONTACT_HEARD, 100},
    {0, 99, UINT32_MAX, VB_CONTACT_HEARD, 100},
    {0, 101, UINT32_MAX, VB_CONTACT_HEARD, 101},
    {99, 1, UINT32_MAX, VB_CONTACT_HEARD, 1},
    {98, 1, UINT32_MAX, VB_CONTACT_HEARD, 2},
    {0, 1, UINT32_MAX, VB_CONTACT_SILENT, 1},
    {0, 1, UINT32_MAX, VB_CONTACT_STARTS, 300},
    {0, 1, 750, VB_CONTACT_HEARD, 50},
    {0, 1, 600, VB_CONTACT_HEARD, 1},
    {0, 0, UINT32_MAX, VB_CONTACT_HEARD, 0},
};

static void check_wants(void)
{
    for (const struct want *it = wants; it < wants + sizeof wants / sizeof *wants; it++) {
        VbFigures figures = {.pages = 1000,
                             .ballooned = 300,
                             .ballooned_then = 300,
                             .available = it->available,
                             .lent = 700,
                             .asked = it->asked,
                             .most = it->most,
                             .contact = it->contact,
                             .strict = 1};
        uint32_t is = vb_policy_wants(&budget, &figures);
        figures.strict = 0;
        if (is != it->wants || vb_policy_wants(&budget, &figures) != 0) {
            fprintf(stderr, "policy: want %ld: %u\n", (long)(it - wants), is);
            exit(1);
        }
    }
}

void check_tiers(void)
{
    check_wants();
    for (const struct row *row = rows; row < rows + sizeof rows / sizeof *rows; row++) {
        VbTiers is = vb_policy_tiers(&budget, &row->figures);
        if (memcmp(&is, &row->tiers, sizeof is) != 0) {
            fprintf(stderr, "policy: %s: pages %u, unused %u, cached %u, spare %u, most %u\n",
                    row->what, is.pages, is.unused, is.cached, is.spare, is.most);
            exit(1);
        }
    }
}
