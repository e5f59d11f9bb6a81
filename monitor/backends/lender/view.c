/* What the lender shows of itself and of each guest, and what may be changed. */
#include "view.h"

#include "places.h"

struct guest_terms host_usual_terms(const struct host *host)
{
    return (struct guest_terms){.most = UINT32_MAX,
                                .weight = 1,
                                .strict = host->strict,
                                .overhead = USUAL_OVERHEAD,
                                .user = ANY_USER,
                                .memory = UINT32_MAX,
                                .start = UINT32_MAX};
}

const char *guest_state_word(enum guest_state state)
{
    static const char *const words[] = {
        [GUEST_ABSENT] = "absent",     [GUEST_COMING] = "coming", [GUEST_WAITING] = "waiting",
        [GUEST_STARTING] = "starting", [GUEST_READY] = "ready",   [GUEST_LEAVING] = "leaving"};
    return words[state];
}

const char *guest_wait_word(enum guest_wait wait)
{
    static const char *const words[] = {[WAITS_FOR_NOTHING] = "nothing",
                                        [WAITS_FOR_ROOM] = "room",
                                        [WAITS_FOR_DEFLATE] = "deflate",
                                        [WAITS_FOR_RESET] = "reset"};
    return words[wait];
}

const char *wait_end_word(enum wait_end how)
{
    static const char *const words[] = {
        [WAS_GRANTED] = "granted", [WAS_REFUSED] = "refused", [WAS_WITHDRAWN] = "withdrawn"};
    return words[how];
}

const char *refusal_word(enum refusal refusal)
{
    static const char *const words[] = {
        [REFUSED_ROOM] = "room", [REFUSED_MEMORY] = "memory", [REFUSED_START] = "start"};
    return words[refusal];
}

static enum guest_state state_of(const struct seat *seat)
{
    if (!seat->here)
        return GUEST_ABSENT;
    if (seat->gone)
        return GUEST_LEAVING;
    if (seat_waits_for(seat) == WAITS_FOR_ROOM)
        return GUEST_WAITING;
    if (seat_pages(seat) == 0)
        return GUEST_COMING;
    return seat_is_ready(seat) ? GUEST_READY : GUEST_STARTING;
}

/* Whether it has taken no pages unasked since it came. */
static bool cooperates(const struct seat *seat)
{
    return seat->cooperates && (seat->report.holds || seat->report.counters.taken == 0);
}

void host_see(const struct host *host, struct host_view *view)
{
    const struct host_counters *its = &host->counters;
    struct demand demand = policy_demand(host);
    *view = (struct host_view){.folder = host->folder,
                               .guests = host->count,
                               .most_guests = host->most,
                               .budget = host->frames,
                               .most_budget = host->budget,
                               .keep = host->machine.keep,
                               .lowest_budget = host->machine.lowest,
                               .overdraft = host->lends.overdraft,
                               .floor = host->floor,
                               .step = host->step,
                               .held_kib = host_held(host),
                               .reserve = host->reserve,
                               .tier = tier_word(host->tier),
                               .short_by = host->missing,
                               .wanted = demand.wanted,
                               .least_budget = demand.least_budget,
                               .patience = host->patience,
                               .is_short = host->shortage.lasts,
                               .strict = host->strict,
                               .period = host->period,
                               .looks = its->looks,
                               .above = its->above,
                               .peak_kib = its->peak,
                               .decisions = its->decisions,
                               .changed = its->changed,
                               .shorts = its->shorts,
                               .admitted = its->admitted,
                               .refused = its->refused,
                               .gone = its->gone,
                               .shortages = its->shortages,
                               .command_failures = its->command_failures,
                               .dropped = lines_dropped};
    if (host->on_short && *host->on_short)
        view->on_short = host->on_short;
    if (host->shortage.lasts && host->shortage.guest[0])
        view->gives_first = host->shortage.guest;
    uint64_t lent = places_owed(host);
    view->overdrawn = lent > host->frames ? lent - host->frames : 0;
    for (unsigned i = 0; i < host->count; i++) {
        const struct seat *seat = host->seats[i];
        view->lent += seat_lent(seat);
        view->waiting += seat_waits_for(seat) != WAITS_FOR_NOTHING;
        view->silent += seat_is_ready(seat) && !seat_answers(seat);
        view->uncooperative += !cooperates(seat);
        view->pressed += seat_is_pressed(seat);
        view->migrating += seat->report.migration != MIGRATES_NOT;
    }
}

static void see_counters(const struct counters *its, struct guest_view *view)
{
    view->inflated = its->inflated;
    view->deflated = its->deflated;
    view->reported = its->reported;
    view->taken = its->taken;
    view->statistics = its->statistics;
    view->told = its->told;
    view->discarded = its->discarded;
    view->skipped = its->skipped;
    view->chains = its->chains;
    view->kicks = its->kicks;
}

/* Seconds since then; 0 where there is no then. */
static double seconds_since(int64_t then)
{
    return then == 0 ? 0 : (double)(loop_now() - then) / 1000;
}

void host_see_guest(const struct host *host, unsigned number, struct guest_view *view)
{
    const struct seat *seat = host->seats[number];
    const struct lending_message *report = &seat->report;
    *view = (struct guest_view){.process = seat->serving,
                                .state = state_of(seat),
                                .terms = seat->terms,
                                .pages = seat_pages(seat),
                                .held_kib = report->held_kib,
                                .loan = seat_lent(seat),
                                .excess = loan_excess(seat),
                                .asked = seat_asked(seat),
                                .granted = seat->granted,
                                .limit = seat->writer.written,
                                .limit_failures = seat->writer.failures,
                                .target = seat->target,
                                .ballooned = report->ballooned,
                                .actual = report->actual,
                                .free = seat->free,
                                .available = seat->available,
                                .spare = policy_spare(seat),
                                .answers = seat_answers(seat),
                                .reports = seat_reports(seat),
                                .cooperates = cooperates(seat),
                                .pressed = seat_is_pressed(seat),
                                .figure_count = report->figure_count,
                                .waits_for = seat_waits_for(seat),
                                .migration = migration_word(report),
                                .ended = seat->ended,
                                .refused_for = refusal_word(seat->refused_for),
                                .refused_by = seat->refused_by,
                                .refusals = seat->refusals,
                                .clients = seat->clients,
                                .lost = seat->lost + report->lost};
    if (seat_waits_for(seat) != WAITS_FOR_NOTHING)
        view->waits = seconds_since(seat->waits_since);
    if (report->migration != MIGRATES_NOT)
        view->migrating = seconds_since(seat->migrates_since);
    if (seat_is_taken(seat)) {
        view->silent = seconds_since(seat->heard_at);
        view->process_silent = seconds_since(seat->asked_at);
    }
    strcpy(view->name, seat->name);
    strcpy(view->path, seat->path);
    strcpy(view->version, report->program);
    memcpy(view->figures, report->figures, sizeof view->figures);
    see_counters(&report->counters, view);
}

int host_find(const struct host *host, const char *name)
{
    for (unsigned i = 0; i < host->count; i++)
        if (!strcmp(host->seats[i]->name, name))
            return (int)i;
    return -1;
}

static const char above_budget[] = "an overdraft is no more than the budget";

const char *host_set_overdraft(struct host *host, uint32_t pages)
{
    if (pages > host->budget)
        return above_budget;
    host->lends.overdraft = pages;
    return NULL;
}

const char *host_set_patience(struct host *host, uint32_t seconds)
{
    if (seconds == 0)
        return "a patience of one second or more";
    host->patience = seconds;
    return NULL;
}

const char *host_budget_fault(const struct host *host, uint32_t pages)
{
    return host->lends.overdraft > pages  ? above_budget
           : host->machine.lowest > pages ? "a budget is no less than lowest_budget"
                                          : NULL;
}

const char *host_set_budget(struct host *host, uint32_t pages)
{
    const char *fault = host_budget_fault(host, pages);
    if (fault)
        return fault;
    bool follows = host->machine.keep > 0 && pages > host->frames;
    host->budget = pages;
    host->frames = follows ? host->frames : pages;
    host_changed(host, BY_BUDGET);
    return NULL;
}

void host_set_keep(struct host *host, uint32_t pages)
{
    host->machine.keep = pages;
    host->frames = pages > 0 ? host->frames : host->budget;
    host_changed(host, BY_BUDGET);
}

void host_set_lowest_budget(struct host *host, uint32_t pages)
{
    host->machine.lowest = pages;
}

const char *host_set_floor(struct host *host, uint32_t pages)
{
    host->floor = pages;
    host_changed(host, BY_BUDGET);
    return NULL;
}

const char *host_set_reserve(struct host *host, uint32_t percent)
{
    host->reserve = percent;
    host_changed(host, BY_BUDGET);
    return NULL;
}

void host_set_strict(struct host *host, bool strict)
{
    host->strict = strict;
}

void host_set_step(struct host *host, uint32_t step)
{
    host->step = step;
}

static const char nobody[] = "no guest has that name";

const char *host_cannot_add(const struct host *host, const char *name,
                            const struct guest_terms *terms)
{
    const char *fault = host_refuses(host, name, terms);
    return fault ? fault : seat_fault(host, name);
}

const char *host_add(struct host *host, const char *name, const struct guest_terms *terms)
{
    const char *fault = host_refuses(host, name, terms);
    fault = fault ? fault : seat_add(host, name, terms);
    if (fault)
        return fault;
    fault = folder_keep(seat_of(host, name), terms);
    if (fault)
        seat_remove(host, seat_of(host, name));
    return fault;
}

const char *host_remove(struct host *host, const char *name)
{
    struct seat *seat = seat_of(host, name);
    return seat ? seat_remove(host, seat) : nobody;
}

const char *host_set_terms(struct host *host, const char *name, const struct guest_terms *terms)
{
    struct seat *seat = seat_of(host, name);
    if (!seat)
        return nobody;
    const char *fault = host_refuses(host, name, terms);
    fault = fault ? fault : folder_keep(seat, terms);
    if (fault)
        return fault;
    if (memcmp(&terms->limit, &seat->terms.limit, sizeof terms->limit) != 0)
        limit_end(seat);
    if (terms->user != seat->terms.user)
        owner_give(seat->path, terms->user);
    seat->terms = *terms;
    seat->asks_terms = false;
    host_changed(host, BY_BUDGET);
    return NULL;
}

const char *host_refuses_target(const struct host *host, const char *name)
{
    const struct seat *seat = seat_of(host, name);
    if (!seat)
        return nobody;
    return seat_is_taken(seat) ? NULL : "nobody is there";
}

const char *host_set_target(struct host *host, const char *name, uint32_t pages)
{
    struct seat *seat = seat_of(host, name);
    const char *fault = host_refuses_target(host, name);
    if (fault)
        return fault;
    seat->by_hand = pages;
    seat_set_target(seat, pages);
    places_settle(host);
    return NULL;
}
