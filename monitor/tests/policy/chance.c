/* Random figures, some of any numbers, by the library and by the plain implementation, which have
 * to decide the same; and that decisions are enough and stay as they are. */
#include "policy.h"
#include <stdio.h>
#include <stdlib.h>
#include <string.h>

enum { MOST = 6, RARE = 200 };

struct host {
    VbPolicyBudget budget;
    VbFigures figures[MOST];
    size_t count;
    bool odd; /* of any numbers */
};

static uint64_t seed = 20261130;
static unsigned long long tiers[VB_TIER_SHORT + 1];

uint32_t policy_chance(uint32_t below)
{
    seed ^= seed << 13;
    seed ^= seed >> 7;
    seed ^= seed << 17;
    return (uint32_t)((seed >> 16) % below);
}

static uint32_t odd_number(uint32_t below)
{
    return policy_chance(3) ? policy_chance(below) : UINT32_MAX - policy_chance(3);
}

static uint16_t rarely(void)
{
    return policy_chance(8) == 0 ? (uint16_t)(1 + policy_chance(UINT16_MAX)) : 0;
}

static uint32_t number(bool odd, uint32_t below)
{
    return odd ? odd_number(below) : policy_chance(below);
}

static VbFigures any_figures(bool odd)
{
    VbFigures it = {.pages = number(odd, 2000), .held = number(odd, 2000)};
    uint32_t below = (it.pages < 2000 ? it.pages : 2000) + 1;
    it.ballooned = number(odd, below);
    it.ballooned_then = policy_chance(3) ? it.ballooned : number(odd, below);
    it.available = number(odd, below - (it.ballooned_then < below ? it.ballooned_then : 0));
    it.free = number(odd, policy_chance(2) ? below : below / 8 + 1);
    it.lent = number(odd, below);
    it.asked = policy_chance(4) ? 0 : number(odd, 50);
    it.least = policy_chance(4) ? 0 : number(odd, below);
    it.most = policy_chance(4) ? UINT32_MAX : number(odd, below);
    it.weight = number(odd, 4);
    it.priority = number(odd, 3);
    it.target = number(odd, below);
    it.contact = (uint16_t)(policy_chance(5) ? VB_CONTACT_HEARD : policy_chance(6));
    it.strict = policy_chance(3) ? (uint16_t)(1 + policy_chance(3)) : 0;
    it.uncounted = policy_chance(4) ? 0 : rarely();
    it.paused = rarely();
    it.pressed = rarely();
    it.first = rarely();
    return it;
}

static struct host any_host(unsigned long long number_of_it)
{
    struct host host = {.count = policy_chance(MOST + 1), .odd = number_of_it % 8 == 0};
    host.budget = (VbPolicyBudget){.frames = number(host.odd, (uint32_t)(host.count * 1500 + 1)),
                                   .floor = number(host.odd, 100),
                                   .slack = number(host.odd, 12),
                                   .reserve = number(host.odd, 20),
                                   .band = policy_chance(3) ? 35 : number(host.odd, 120)};
    for (size_t i = 0; i < host.count; i++)
        host.figures[i] = any_figures(host.odd);
    return host;
}

static void fail(const struct host *host, const char *what)
{
    const VbPolicyBudget *it = &host->budget;
    fprintf(stderr, "policy: %s: frames %u, floor %u, slack %u, reserve %u, band %u\n", what,
            it->frames, it->floor, it->slack, it->reserve, it->band);
    for (size_t i = 0; i < host->count; i++) {
        const VbFigures *its = &host->figures[i];
        fprintf(stderr, "  pages %u, held %u, ballooned %u %u, available %u, free %u, lent %u %u,",
                its->pages, its->held, its->ballooned, its->ballooned_then, its->available,
                its->free, its->lent, its->asked);
        fprintf(stderr, " least %u, most %u, weight %u, priority %u, target %u, flags %u %u %u %u",
                its->least, its->most, its->weight, its->priority, its->target, its->contact,
                its->strict, its->uncounted, its->paused);
        fprintf(stderr, " %u %u\n", its->pressed, its->first);
    }
    exit(1);
}

static VbDecision decide(const struct host *host, uint32_t *targets)
{
    VbPolicyRoom rooms[MOST];
    return vb_policy_decide(&host->budget, host->figures, host->count, rooms, host->count, targets,
                            host->count);
}

static void check_same(const struct host *host, VbDecision is, const uint32_t *targets)
{
    VbPolicyRoom rooms[MOST];
    uint32_t others[MOST] = {0};
    VbDecision other = reference_policy_decide(&host->budget, host->figures, host->count, rooms,
                                               host->count, others, host->count);
    if (is.code != other.code || is.tier != other.tier || is.missing != other.missing ||
        memcmp(targets, others, host->count * sizeof targets[0]) != 0)
        fail(host, "the plain implementation decides something else");
    for (size_t i = 0; i < host->count; i++) {
        VbTiers one = vb_policy_tiers(&host->budget, &host->figures[i]);
        VbTiers plain = reference_policy_tiers(&host->budget, &host->figures[i]);
        if (memcmp(&one, &plain, sizeof one) != 0)
            fail(host, "the plain implementation has other tiers");
        if (vb_policy_wants(&host->budget, &host->figures[i]) !=
            reference_policy_wants(&host->budget, &host->figures[i]))
            fail(host, "the plain implementation has a guest want something else");
    }
}

/* What the guests count for without their targets is no more than the frames; and the targets stay
 * once they are set, where no slack is as large as all memory. */
static void check_laws(struct host *host, VbDecision is, const uint32_t *targets)
{
    uint32_t again[MOST] = {0};
    uint64_t pages = 0, asked = 0;
    for (size_t i = 0; i < host->count; i++) {
        pages += vb_policy_tiers(&host->budget, &host->figures[i]).pages;
        asked += targets[i];
        host->figures[i].target = targets[i];
    }
    if (is.tier != VB_TIER_SHORT && pages > host->budget.frames + asked)
        fail(host, "targets aren't enough");
    decide(host, again);
    if (!host->odd && memcmp(targets, again, host->count * sizeof again[0]) != 0)
        fail(host, "targets don't rest");
}

void check_chance(unsigned long long decisions)
{
    struct host host;
    uint32_t targets[MOST];
    for (unsigned long long i = 0; i < decisions; i++) {
        memset(targets, 0, sizeof targets);
        host = any_host(i);
        VbDecision is = decide(&host, targets);
        check_same(&host, is, targets);
        check_laws(&host, is, targets);
        tiers[is.tier]++;
    }
    printf("policy: %llu random decisions, by tier:", decisions);
    for (uint32_t tier = VB_TIER_NONE; tier <= VB_TIER_SHORT; tier++)
        printf(" %llu", tiers[tier]);
    puts("");
    for (uint32_t tier = VB_TIER_NONE; tier <= VB_TIER_SHORT; tier++)
        if (tiers[tier] < decisions / RARE)
            fail(&host, "a tier is too rare");
}
