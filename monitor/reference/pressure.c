/* Whose work waits for memory, a guest's or the machine's own, and what follows, in plain C: the
 * rules as vb_policy.h says them. */
#include "reference.h"
#include "vb_policy.h"

enum { COUNTERS = 6, KILLS = 2 }; /* in the order of a sample */

static void counters_of(const VbSample *sample, VbCounter counters[COUNTERS])
{
    const VbCounter its[COUNTERS] = {sample->swap_in, sample->swap_out,    sample->oom_kills,
                                     sample->stalls,  sample->direct_scan, sample->direct_reclaim};
    for (unsigned i = 0; i < COUNTERS; i++)
        counters[i] = its[i];
}

/* Whether the balloon inflated between two samples. */
static bool inflated(const VbSample *last, const VbSample *sample)
{
    return sample->ballooned > last->ballooned || last->target > last->ballooned ||
           sample->target > sample->ballooned;
}

VbPressure vb_policy_press(const VbPressure *pressure, const VbSample *sample, uint64_t now)
{
    VbCounter last[COUNTERS], its[COUNTERS];
    Sum until = now, latest = less((Sum)now + VB_KILLED_MS, UINT64_MAX);
    counters_of(&pressure->last, last);
    counters_of(sample, its);
    for (unsigned i = 0; i < COUNTERS; i++) {
        bool rises = last[i].present && its[i].present && its[i].value > last[i].value;
        if (rises && i == KILLS)
            until = more(until, (Sum)now + VB_KILLED_MS);
        else if (rises && !inflated(&pressure->last, sample))
            until = more(until, (Sum)now + VB_PRESSED_MS);
        its[i] = its[i].present ? its[i] : last[i];
    }
    return (VbPressure){
        .last = {its[0], its[1], its[2], its[3], its[4], its[5], sample->ballooned, sample->target},
        .until = (uint64_t)less(latest, more(until, pressure->until))};
}

uint32_t vb_policy_pressed(const VbPressure *pressure, uint64_t now)
{
    return now < pressure->until;
}

uint32_t vb_policy_budget(const VbMachine *machine)
{
    Sum budget = machine->budget, step = machine->step,
        all = (Sum)machine->held + machine->available;
    Sum left = beyond(all, machine->keep), next = less(budget + step, UINT32_MAX);
    if (machine->pressed)
        left = less(left, beyond(budget, step));
    if (left >= next || left >= machine->most)
        budget = next;
    budget = less(less(budget, left), machine->most);
    return (uint32_t)more(budget, less(machine->least, machine->most));
}
