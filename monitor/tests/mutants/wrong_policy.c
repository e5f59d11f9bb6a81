/* Of the hosts that are wrong on purpose (wrong_host.c) those that are wrong about the policy. */
#include "wrong_host.h"

VbDecision __real_vb_policy_decide(const VbPolicyBudget *, const VbFigures *, size_t,
                                   VbPolicyRoom *, size_t, uint32_t *, size_t);
VbDecision __wrap_vb_policy_decide(const VbPolicyBudget *, const VbFigures *, size_t,
                                   VbPolicyRoom *, size_t, uint32_t *, size_t);
VbTiers __real_vb_policy_tiers(const VbPolicyBudget *, const VbFigures *);
VbTiers __wrap_vb_policy_tiers(const VbPolicyBudget *, const VbFigures *);
VbPressure __real_vb_policy_press(const VbPressure *, const VbSample *, uint64_t);
VbPressure __wrap_vb_policy_press(const VbPressure *, const VbSample *, uint64_t);
uint32_t __real_vb_policy_pressed(const VbPressure *, uint64_t);
uint32_t __wrap_vb_policy_pressed(const VbPressure *, uint64_t);

/* The frames that are left beside the pages of guests that have gone. */
static uint32_t left_by_dead(uint64_t pages, uint32_t frames)
{
    static uint64_t most;
    most = pages > most ? pages : most;
    return wrong() != COUNTS_DEAD  ? frames
           : most - pages < frames ? frames - (uint32_t)(most - pages)
                                   : 0;
}

static uint32_t floor_of(uint32_t floor)
{
    return wrong() == NO_FLOOR ? 0 : floor;
}

VbTiers __wrap_vb_policy_tiers(const VbPolicyBudget *budget, const VbFigures *figures)
{
    VbPolicyBudget other = *budget;
    other.floor = floor_of(budget->floor);
    return __real_vb_policy_tiers(&other, figures);
}

VbPressure __wrap_vb_policy_press(const VbPressure *pressure, const VbSample *sample, uint64_t now)
{
    VbSample its = *sample;
    if (wrong() == PRESSED_BY_BALLOON)
        its.ballooned = its.target = 0;
    VbPressure next = __real_vb_policy_press(pressure, &its, now);
    if (wrong() == PRESSED_FOR_GOOD && next.until > now)
        next.until = UINT64_MAX;
    return next;
}

uint32_t __wrap_vb_policy_pressed(const VbPressure *pressure, uint64_t now)
{
    return wrong() != NONE_PRESSED && __real_vb_policy_pressed(pressure, now);
}

/* All page cache counts as unused memory, or all weights as 1. */
static const VbFigures *seen(const VbFigures *figures, size_t count)
{
    static VbFigures others[2 * MOST_GUESTS];
    for (size_t i = 0; i < count; i++) {
        others[i] = figures[i];
        if (wrong() == NO_TIERS)
            others[i].free = UINT32_MAX;
        if (wrong() == NO_WEIGHTS)
            others[i].weight = 1;
    }
    return others;
}

static uint64_t all_pages(const VbPolicyBudget *budget, const VbFigures *figures, size_t count)
{
    uint64_t pages = 0;
    for (size_t i = 0; i < count; i++)
        pages += __real_vb_policy_tiers(budget, &figures[i]).pages;
    return pages;
}

VbDecision __wrap_vb_policy_decide(const VbPolicyBudget *budget, const VbFigures *figures,
                                   size_t count, VbPolicyRoom *rooms, size_t rooms_count,
                                   uint32_t *targets, size_t targets_count)
{
    uint64_t sum = 0;
    VbPolicyBudget other = *budget;
    other.frames = left_by_dead(all_pages(budget, figures, count), budget->frames);
    other.floor = floor_of(budget->floor);
    VbDecision answer = __real_vb_policy_decide(&other, seen(figures, count), count, rooms,
                                                rooms_count, targets, targets_count);
    for (size_t i = 0; i < count && answer.code == VB_SHORT && wrong() == KEEPS_FLOORS; i++)
        targets[i] = __real_vb_policy_tiers(budget, &figures[i]).spare;
    if (answer.code != VB_OK || count == 0)
        return answer;
    for (size_t i = 0; i < count; i++)
        sum += targets[i];
    uint32_t last = targets[count - 1];
    for (size_t i = count; i-- > 0;) {
        if (wrong() == EVENLY)
            targets[i] = (uint32_t)(sum / count);
        if (wrong() == NEIGHBOURS)
            targets[i] = i > 0 ? targets[i - 1] : last;
    }
    return answer;
}
