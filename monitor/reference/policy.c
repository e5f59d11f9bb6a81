/* Which guest of a host is asked for how much, in plain C: the rules as vb_policy.h says them. */
#include "reference.h"
#include "vb_policy.h"

/* ---- one guest, by its figures */

static bool is_lent(const VbFigures *it)
{
    return it->strict || it->uncounted;
}

static bool waits(const VbFigures *it)
{
    return is_lent(it) && it->asked;
}

static Sum counts(const VbFigures *it)
{
    if (is_lent(it))
        return it->pages;
    if (it->contact == VB_CONTACT_AWAY)
        return it->held;
    if (it->contact == VB_CONTACT_SILENT)
        return less(it->pages, it->held + less(it->ballooned, it->pages));
    return it->pages;
}

/* What a guest tells that it can give of `room` pages, of which some stay. */
static Sum tells(const VbFigures *it, bool limited, Sum stay, uint32_t room)
{
    Sum given = less(it->ballooned, it->pages);
    if (it->contact == VB_CONTACT_SILENT)
        return given;
    if (it->contact != VB_CONTACT_HEARD)
        return 0;
    Sum spare = beyond(less((Sum)it->ballooned_then + room, it->pages), stay);
    return limited ? less(spare, given) : spare;
}

static Sum gives(const VbFigures *it, bool limited, Sum stay, uint32_t room)
{
    Sum spare = less(tells(it, limited, stay, room), counts(it));
    if (waits(it))
        spare = beyond(it->pages, (Sum)it->lent + it->asked);
    else if (it->uncounted)
        spare = 0;
    return less(spare, beyond(counts(it), it->least));
}

VbTiers vb_policy_tiers(const VbPolicyBudget *budget, const VbFigures *it)
{
    bool paused = it->paused, spared = it->paused || it->pressed;
    Sum reserve = (Sum)it->pages * less(budget->reserve, 100) / 100;
    uint32_t free_pages = it->free < it->available ? it->free : it->available;
    Sum spare = gives(it, paused, budget->floor, it->available);
    Sum cached = less(spare, gives(it, spared, budget->floor + reserve, it->available));
    Sum loose = more(budget->floor / 2, it->pages / 512);
    Sum most = gives(it, paused, beyond(budget->floor, budget->slack), it->available);
    return (VbTiers){(uint32_t)counts(it),
                     (uint32_t)less(cached, gives(it, spared, loose, free_pages)), (uint32_t)cached,
                     (uint32_t)spare, (uint32_t)most};
}

static Sum forced(const VbPolicyBudget *budget, const VbFigures *it)
{
    return waits(it) ? 0 : less(beyond(counts(it), it->most), vb_policy_tiers(budget, it).spare);
}

uint32_t vb_policy_wants(const VbPolicyBudget *budget, const VbFigures *it)
{
    Sum uses = beyond(it->pages, tells(it, false, budget->floor, it->available));
    Sum takes = beyond(less(uses, it->most), it->lent);
    return waits(it) ? (uint32_t)more(it->asked, takes) : 0;
}

/* ---- all guests of a decision */

enum { NUMBER_OF_TIERS = 4 };

/* What a guest can give in the tiers before each one and with it, the most that its target so far
 * may be, and that target, all beside what is forced. */
struct part {
    Sum through[NUMBER_OF_TIERS], most, old, weight, forced;
};

/* How a tier is divided. */
struct level {
    const VbPolicyBudget *budget;
    const VbFigures *figures;
    VbPolicyRoom *rooms; /* what was found of each guest for this division */
    size_t count;
    bool yields; /* so that the first that waits is served */
    unsigned tier;
    uint32_t priority;
    Sum kept;
};

/* While the first that waits is served, what others wait for after it isn't looked at, and a
 * quarter of the floor stays in those that don't wait. */
static Sum yielded(const VbPolicyBudget *budget, const VbFigures *it)
{
    if (waits(it) && !it->first)
        return less(beyond(it->pages, it->lent), beyond(counts(it), it->least));
    return gives(it, it->paused, budget->floor / 4, it->available);
}

/* Finds a guest's part: not again for each level that is tried. */
static VbPolicyRoom find_part(const struct level *level, size_t number)
{
    const VbFigures *it = &level->figures[number];
    const VbPolicyBudget *budget = level->budget;
    VbTiers tiers = vb_policy_tiers(budget, it);
    Sum first = forced(budget, it);
    Sum spare = beyond(level->yields ? yielded(budget, it) : tiers.spare, first);
    Sum cached = less(spare, beyond(tiers.cached, first));
    Sum unused = less(cached, beyond(tiers.unused, first));
    Sum old = it->pressed ? UINT32_MAX : beyond(it->target, first);
    return (VbPolicyRoom){.numbers = {(uint32_t)unused, (uint32_t)cached, (uint32_t)spare,
                                      (uint32_t)more(spare, beyond(tiers.most, first)),
                                      (uint32_t)old, it->weight ? it->weight : 1, (uint32_t)first}};
}

static struct part part_of(const struct level *level, size_t number)
{
    const uint32_t *its = level->rooms[number].numbers;
    return (struct part){.through = {0, its[0], its[1], its[2]},
                         .most = its[3],
                         .old = its[4],
                         .weight = its[5],
                         .forced = its[6]};
}

/* A guest's target by a level. */
static Sum fair(const struct level *level, size_t number)
{
    struct part part = part_of(level, number);
    uint32_t priority = level->figures[number].priority;
    Sum before = part.through[level->tier - 1], through = part.through[level->tier];
    if (priority != level->priority)
        return priority < level->priority ? through : before;
    return more(before, beyond(through, level->kept * part.weight / 4096));
}

static Sum all_fair(const struct level *level)
{
    Sum sum = 0;
    for (size_t i = 0; i < level->count; i++)
        sum += fair(level, i);
    return sum;
}

static Sum all_through(const struct level *level, unsigned tier)
{
    Sum sum = 0;
    for (size_t i = 0; i < level->count; i++)
        sum += part_of(level, i).through[tier];
    return sum;
}

/* The lowest class that, with all before it, gives enough of the tier. */
static uint32_t first_class(struct level level, Sum lack)
{
    uint32_t first = UINT32_MAX;
    level.kept = 0;
    for (size_t i = 0; i < level.count; i++) {
        level.priority = level.figures[i].priority;
        if (level.priority < first && all_fair(&level) >= lack)
            first = level.priority;
    }
    return first;
}

/* The first tier that suffices, the class in it, and the most that leaves enough. */
static void divide(struct level *level, Sum lack)
{
    level->tier = 1;
    while (all_through(level, level->tier) < lack)
        level->tier++;
    level->priority = first_class(*level, lack);
    level->kept = 0;
    for (int bit = 44; bit >= 0; bit--) {
        struct level higher = *level;
        higher.kept += (Sum)1 << bit;
        if (all_fair(&higher) >= lack)
            *level = higher;
    }
}

/* ---- targets */

/* A poor guest gets its part, and another stays. */
static Sum base(const struct level *level, size_t number, Sum fair)
{
    struct part part = part_of(level, number);
    Sum through = part.through[level->tier];
    Sum left = beyond(through, part.old) + level->budget->slack;
    bool is_squeezed = 100 * left < less(level->budget->band, 100) * beyond(through, fair);
    return is_squeezed || part.old > part.most ? fair : part.old;
}

static Sum settled(const struct level *level, size_t number, Sum gap)
{
    Sum its = fair(level, number);
    return more(base(level, number, its), beyond(its, gap));
}

static Sum all_settled(const struct level *level, Sum gap)
{
    Sum sum = 0;
    for (size_t i = 0; i < level->count; i++)
        sum += settled(level, i, gap);
    return sum;
}

static Sum widest_gap(const struct level *level, Sum lack)
{
    Sum gap = 0;
    for (int bit = 31; bit >= 0; bit--)
        if (all_settled(level, gap + ((Sum)1 << bit)) >= lack)
            gap += (Sum)1 << bit;
    return gap;
}

/* Whether each guest of a short host may stay: its target is within the slack of all that it can
 * give, and it doesn't wait. */
static bool all_stay(const struct level *level)
{
    for (size_t i = 0; i < level->count; i++) {
        struct part part = part_of(level, i);
        Sum spare = part.through[3], slack = level->budget->slack;
        if (part.old > spare + slack || spare > part.old + slack || waits(&level->figures[i]))
            return false;
    }
    return true;
}

static uint32_t with_forced(const struct level *level, size_t number, Sum target)
{
    return (uint32_t)less(UINT32_MAX, target + part_of(level, number).forced);
}

static void set_short(const struct level *level, uint32_t *targets)
{
    bool stay = all_stay(level);
    for (size_t i = 0; i < level->count; i++) {
        struct part part = part_of(level, i);
        targets[i] = with_forced(level, i, stay ? part.old : part.through[3]);
    }
}

/* Sets targets; the tier of the decision. */
static uint32_t set(struct level *level, Sum lack, uint32_t *targets)
{
    for (size_t i = 0; i < level->count; i++)
        level->rooms[i] = find_part(level, i);
    if (all_through(level, 3) < lack) {
        set_short(level, targets);
        return VB_TIER_SHORT;
    }
    level->tier = VB_TIER_UNUSED;
    if (lack > 0)
        divide(level, lack);
    Sum gap = lack > 0 ? widest_gap(level, lack) : UINT32_MAX;
    for (size_t i = 0; i < level->count; i++) {
        Sum target = lack > 0 ? settled(level, i, gap) : base(level, i, 0);
        targets[i] = with_forced(level, i, target);
    }
    return lack > 0 ? level->tier : VB_TIER_NONE;
}

VbDecision vb_policy_decide(const VbPolicyBudget *budget, const VbFigures *figures, size_t count,
                            VbPolicyRoom *rooms, size_t rooms_count, uint32_t *targets,
                            size_t targets_count)
{
    struct level level = {.budget = budget, .figures = figures, .rooms = rooms, .count = count};
    Sum lack = 0;
    bool one_waits = false;
    if (rooms_count != count || targets_count != count)
        return (VbDecision){.code = VB_BAD_ARGUMENT};
    for (size_t i = 0; i < count; i++) {
        lack += counts(&figures[i]) - less(counts(&figures[i]), forced(budget, &figures[i]));
        one_waits |= waits(&figures[i]);
    }
    lack = less(beyond(lack, budget->frames), UINT64_MAX);
    VbDecision decision = {.tier = set(&level, lack, targets)};
    if (decision.tier == VB_TIER_SHORT) {
        decision.code = VB_SHORT;
        decision.missing = (uint64_t)(lack - all_through(&level, 3));
        level.yields = true;
        if (one_waits)
            set(&level, lack, targets);
    }
    return decision;
}
