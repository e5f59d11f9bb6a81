/* What the library is asked, and what is done with its answers: what each guest is known by, and
 * the targets that are decided. */
#include "measures.h"
#include "places.h"

enum {
    FREE_MEMORY = 4, /* the tags (VIRTIO 1.1, 5.5.6.3) */
    AVAILABLE_MEMORY = 6,
    SLACK_PART = 8, /* this part of the floor is too little to change a target for */
    BAND = 35,      /* percent: who has less than this of its part gets its part */
    PAUSE = 2000,   /* milliseconds in which a guest that took pages itself is asked for no more */
};

/* The guests, in the order of their seats, and those that are leaving after them. */
struct guests {
    unsigned count;
    struct seat **seats;
    VbFigures *figures;
    uint32_t *targets;
};

/* Those that are decided on; those that would be with a newcomer; and what is worked with. */
static struct guests decided, asked;
static VbPolicyRoom *rooms;
static struct share *shares;
static VbSeat *seats_then;

bool policy_make(unsigned guests)
{
    const size_t known = 2 * (size_t)guests;
    const struct table tables[] = {
        {&decided.seats, known, sizeof decided.seats[0]},
        {&decided.figures, known, sizeof decided.figures[0]},
        {&decided.targets, known, sizeof decided.targets[0]},
        {&asked.seats, known, sizeof asked.seats[0]},
        {&asked.figures, known, sizeof asked.figures[0]},
        {&asked.targets, known, sizeof asked.targets[0]},
        {&rooms, known, sizeof rooms[0]},
        {&shares, known, sizeof shares[0]},
        {&seats_then, places_of(guests), sizeof seats_then[0]},
    };
    return tables_make(tables, sizeof tables / sizeof tables[0]);
}

/* Whether its statistics say what it can spare. */
static bool is_heard(const struct seat *seat)
{
    return seat_reports(seat) && seat_answers(seat);
}

static bool is_paused(const struct seat *seat)
{
    return loop_now() < seat->paused_until;
}

static uint16_t contact_of(const struct seat *seat)
{
    if (!seat_is_taken(seat))
        return VB_CONTACT_AWAY;
    if (!seat_is_ready(seat)) /* it gives the pages that it has started without */
        return ask_read(seat, &seat->report).small ? VB_CONTACT_SILENT : VB_CONTACT_STARTS;
    return is_heard(seat) ? VB_CONTACT_HEARD : VB_CONTACT_SILENT;
}

/* What is known of a guest, with the memory that is added to it, and what is outside. */
static VbFigures known_of(const struct seat *seat)
{
    const VbSeat *its = place_of(seat), *added = added_place_of(seat);
    return (VbFigures){.pages = its->pages + its->outside + added->pages,
                       .held = pages_held(seat),
                       .ballooned = its->ballooned + added->ballooned,
                       .ballooned_then = seat->ballooned_then,
                       .available = seat->tells_available ? seat->available : seat->free,
                       .free = seat->tells_free ? seat->free : UINT32_MAX,
                       .lent = seat_lent(seat),
                       .asked = seat_asked(seat),
                       .least = seat->terms.least,
                       .most = seat->terms.most,
                       .weight = seat->terms.weight,
                       .priority = seat->terms.priority,
                       .target = seat->target,
                       .contact = contact_of(seat),
                       .strict = seat->holds,
                       .uncounted = its->uncounted != 0,
                       .paused = is_paused(seat),
                       .pressed = seat_is_pressed(seat)};
}

/* By what is known of it, what a guest can spare is found. */
static enum bound bound_of(const struct seat *seat)
{
    if (place_of(seat)->uncounted || (seat->holds && seat_asked(seat) > 0))
        return BY_LOAN;
    if (!is_heard(seat))
        return BY_SILENCE;
    return is_paused(seat) ? BY_PAUSE : seat_is_pressed(seat) ? BY_STALLS : BY_STATISTICS;
}

static VbPolicyBudget budget_of(const struct host *host)
{
    return (VbPolicyBudget){.frames = host->frames,
                            .floor = host->floor,
                            .slack = host->floor / SLACK_PART,
                            .reserve = host->reserve,
                            .band = BAND};
}

static VbTiers tiers_of(const struct host *host, const VbFigures *figures)
{
    VbPolicyBudget budget = budget_of(host);
    return vb_policy_tiers(&budget, figures);
}

/* What a guest is decided by. What an operator wants in its balloon is asked of it as what it has,
 * of the pages that it counts for, above its most. */
static VbFigures figures_of(const struct seat *seat)
{
    VbFigures figures = known_of(seat);
    uint32_t pages = seat->by_hand > 0 ? tiers_of(seat->host, &figures).pages : UINT32_MAX;
    figures.most = smaller(figures.most, pages - smaller(pages, seat->by_hand));
    return figures;
}

uint32_t policy_spare(const struct seat *seat)
{
    VbFigures figures = figures_of(seat);
    return tiers_of(seat->host, &figures).spare;
}

void policy_hears(struct seat *seat)
{
    const struct lending_message *report = &seat->report;
    seat->tells_free = seat->tells_available = false;
    for (uint32_t i = 0; i < report->figure_count; i++) {
        uint64_t told = report->figures[i].value / BALLOON_PAGE;
        uint32_t pages = told < seat_pages(seat) ? (uint32_t)told : seat_pages(seat);
        if (report->figures[i].tag == FREE_MEMORY)
            seat->free = pages, seat->tells_free = true;
        if (report->figures[i].tag == AVAILABLE_MEMORY)
            seat->available = pages, seat->tells_available = true;
    }
    seat->known = seat->tells_free || seat->tells_available;
    seat->ballooned_then = report->ballooned_then;
    pressure_hears(seat);
    seat->host->news = true;
}

struct demand policy_demand(const struct host *host)
{
    VbPolicyBudget budget = budget_of(host);
    struct demand demand = {0, 0};
    memcpy(seats_then, host->places, host->place_count * sizeof seats_then[0]);
    for (unsigned i = 0; i < host->count; i++) {
        VbFigures figures = figures_of(host->seats[i]);
        VbSeat *its = &seats_then[host->seats[i]->place];
        uint32_t wants = vb_policy_wants(&budget, &figures);
        demand.wanted += wants;
        if (its->held > 0)
            its->held += smaller(wants - smaller(wants, figures.asked), UINT32_MAX - its->held);
    }
    demand.least_budget = vb_host_least_budget(seats_then, host->place_count);
    return demand;
}

/* Linux takes pages back where it has none free. */
void policy_sees_taken(struct seat *seat)
{
    seat->known = true;
    seat->free = seat->available = 0;
    seat->ballooned_then = seat->report.ballooned_then;
    seat->paused_until = loop_now() + PAUSE;
    seat->host->news = true;
}

/* ---- decisions */

/* Adds a guest, if it counts for any pages. */
static void add(struct guests *guests, struct seat *seat, VbFigures figures)
{
    if (tiers_of(seat->host, &figures).pages == 0)
        return;
    guests->seats[guests->count] = seat;
    guests->figures[guests->count++] = figures;
}

/* Nothing is asked of a guest that leaves, which counts for what it holds. */
static VbFigures leaving(const struct seat *seat)
{
    return (VbFigures){.held = pages_held(seat), .most = UINT32_MAX, .contact = VB_CONTACT_AWAY};
}

/* All guests but one. Where all is decided again, targets so far don't count. */
static void collect(const struct host *host, const struct seat *except, struct guests *guests)
{
    size_t first = vb_host_first(host->places, host->place_count);
    guests->count = 0;
    for (unsigned i = 0; i < host->count; i++) {
        struct seat *seat = host->seats[i];
        VbFigures figures = figures_of(seat);
        figures.first = first != SIZE_MAX && (seat->place == first || seat->added == first);
        figures.target = host->anew ? 0 : figures.target;
        if (seat != except)
            add(guests, seat, figures);
    }
    for (unsigned i = 0; i < host->leaving_count; i++)
        add(guests, host->leaving[i], leaving(host->leaving[i]));
}

static VbDecision share_out(struct guests *guests, const struct host *host)
{
    VbPolicyBudget budget = budget_of(host);
    unsigned count = guests->count;
    return vb_policy_decide(&budget, guests->figures, count, rooms, count, guests->targets, count);
}

uint64_t policy_lacks(struct host *host, const struct seat *newcomer, uint32_t pages)
{
    collect(host, newcomer, &asked);
    add(&asked, (struct seat *)newcomer,
        (VbFigures){.pages = pages, .most = UINT32_MAX, .contact = VB_CONTACT_STARTS});
    return share_out(&asked, host).missing;
}

/* The first guest that is asked for more than it can spare; or, where `pressed` is set, that is
 * pressed and gets pages back. NULL: there is none. */
static const struct share *first_share(const struct decision *decision, bool pressed)
{
    for (unsigned i = 0; i < decision->count; i++) {
        const struct share *its = &decision->shares[i];
        if (pressed ? its->pressed && its->target < its->old : its->old > its->tiers.most)
            return its;
    }
    return NULL;
}

/* Why targets change, where nothing but what guests can spare has changed. */
static void explain(const struct host *host, struct decision *decision)
{
    const struct share *pressed = first_share(decision, true),
                       *about = pressed ? pressed : first_share(decision, false);
    decision->reason = host->anew ? host->reason : BY_MISSING;
    if (host->anew || !about)
        return;
    decision->reason = pressed ? BY_PRESSURE : BY_SPARE;
    strcpy(decision->who, about->name);
}

static void note(struct host *host, const struct guests *guests, VbDecision is)
{
    struct decision decision = {.at = loop_now(),
                                .frames = host->frames,
                                .floor = host->floor,
                                .tier = is.tier,
                                .missing = is.missing,
                                .count = guests->count,
                                .shares = shares};
    for (unsigned i = 0; i < guests->count; i++) {
        const struct seat *seat = guests->seats[i];
        struct share *share = &shares[i];
        strcpy(share->name, seat->name);
        share->tiers = tiers_of(host, &guests->figures[i]);
        share->bound = bound_of(seat);
        share->pressed = guests->figures[i].pressed != 0;
        share->ballooned = guests->figures[i].ballooned;
        share->old = seat->target;
        share->target = guests->targets[i];
    }
    explain(host, &decision);
    journal_add(host, &decision);
}

/* Tells the guests their targets. Returns how many have changed. */
static unsigned tell(struct host *host, const struct guests *guests)
{
    unsigned changed = 0;
    for (unsigned i = 0; i < guests->count; i++) {
        struct seat *seat = guests->seats[i];
        if (guests->targets[i] == seat->target)
            continue;
        seat_set_target(seat, guests->targets[i]);
        changed++;
    }
    places_settle(host);
    return changed;
}

/* Whether a guest gets another target. */
static bool changes(const struct guests *guests)
{
    for (unsigned i = 0; i < guests->count; i++)
        if (guests->targets[i] != guests->seats[i]->target)
            return true;
    return false;
}

/* What an operator wanted of guests ends once all is decided again. */
static void end_hands(const struct host *host)
{
    for (unsigned i = 0; i < host->count; i++)
        host->seats[i]->by_hand = 0;
}

static void decide(struct host *host)
{
    if (host_awaits(host))
        return;
    host->news = false;
    if (host->anew)
        end_hands(host);
    collect(host, NULL, &decided);
    VbDecision is = share_out(&decided, host);
    if (host->anew || is.missing != host->missing || changes(&decided))
        note(host, &decided, is);
    host->counters.shorts += is.tier == VB_TIER_SHORT;
    host->missing = is.missing;
    host->tier = is.tier;
    host->anew = false;
    host->counters.changed += tell(host, &decided);
}

void policy_decide(struct host *host)
{
    double begin = loop_seconds();
    decide(host);
    measure_decision(loop_seconds() - begin);
}
