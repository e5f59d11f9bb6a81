#include "apply.h"

#include "../base/say.h"
#include "../lender/host.h"

#include <errno.h>
#include <stdio.h>
#include <string.h>

/* Whether guests are strict of which a configuration says nothing. */
static bool usually_strict(const struct config *config, const struct host *host)
{
    return config_says(config->says, KEY_STRICT) ? config->strict : host_usual_terms(host).strict;
}

/* The terms of a guest of a configuration. */
static struct guest_terms terms_of(const struct config_guest *guest, bool strict)
{
    struct guest_terms terms = guest->terms;
    if (!config_says(guest->says, TERM_STRICT))
        terms.strict = strict;
    return terms;
}

/* How many guests there are with those of a configuration: others stay. */
static unsigned count_with(const struct config *config, const struct host *host)
{
    unsigned count = config->count;
    for (unsigned i = 0; i < host->count; i++)
        count += !config_guest_of((struct config *)config, host->seats[i]->name);
    return count;
}

void apply_room(const struct config *config, struct host *host)
{
    for (unsigned i = 0; i < host->count && count_with(config, host) > host->most;) {
        struct seat *seat = host->seats[i];
        bool stays = seat->here || config_guest_of((struct config *)config, seat->name);
        if (!stays)
            complain("guest %s has no place any longer: nobody is there or names it", seat->name);
        if (stays || seat_remove(host, seat))
            i++;
    }
}

/* Whether one of the first guests of a configuration has this limit, but for that of a number. */
static bool is_said(const struct config *config, unsigned count, unsigned but,
                    const struct guest_limit *limit)
{
    for (unsigned i = 0; i < count; i++)
        if (i != but && limits_collide(&config->guests[i].terms.limit, limit))
            return true;
    return false;
}

/* Whether a guest's limit is that of another one, as a configuration has them, or as one of the
 * host's has it that isn't named there. */
static bool shares_limit(const struct config *config, const struct host *host, unsigned number)
{
    const struct guest_limit *limit = &config->guests[number].terms.limit;
    for (unsigned i = 0; i < host->count; i++) {
        const struct seat *seat = host->seats[i];
        bool stays = !config_guest_of((struct config *)config, seat->name);
        if (stays && limits_collide(&seat->terms.limit, limit))
            return true;
    }
    return is_said(config, number, number, limit);
}

/* Takes from guests the limits that are to be other ones'. */
static void free_limits(const struct config *config, const struct host *host)
{
    for (unsigned i = 0; i < config->count; i++) {
        const struct config_guest *guest = &config->guests[i];
        struct seat *seat = seat_of(host, guest->name);
        bool changes =
            seat && memcmp(&seat->terms.limit, &guest->terms.limit, sizeof guest->terms.limit) != 0;
        if (changes && is_said(config, config->count, i, &seat->terms.limit))
            limit_leave(seat);
    }
}

bool apply_guests(const char *file, const struct config *config, const struct config *files,
                  struct host *host)
{
    bool good = true, strict = host_usual_terms(host).strict;
    free_limits(config, host);
    for (unsigned i = 0; i < config->count; i++) {
        const struct config_guest *guest = &config->guests[i];
        struct guest_terms terms = terms_of(guest, strict);
        const char *fault = host_find(host, guest->name) < 0
                                ? host_add(host, guest->name, &terms)
                                : host_set_terms(host, guest->name, &terms);
        if (fault)
            say_fault("%s: guest %s: %s", file, guest->name, fault);
        good &= !fault || !config_guest_of((struct config *)files, guest->name);
    }
    return good;
}

/* Whether a size that a configuration says, or else the host's, is within a budget: UINT32_MAX is
 * none. */
static bool is_within(const char *file, const char *key, uint32_t said, uint32_t own,
                      uint32_t budget)
{
    uint32_t size = said != UINT32_MAX ? said : own;
    return size == UINT32_MAX || size <= budget ||
           say_fault("%s: %s: more than the budget that was set", file, key);
}

/* Whether the host takes the sizes of a configuration, with its own where that says none. */
static bool sizes_fit(const char *file, const struct config *config, const struct host *host)
{
    uint32_t budget = config->budget != UINT32_MAX ? config->budget : host->budget;
    bool good = is_within(file, "overdraft", config->overdraft, host->lends.overdraft, budget);
    return is_within(file, "lowest_budget", config->lowest_budget, host->machine.lowest, budget) &&
           good;
}

/* Why the host can't have a guest of a configuration; NULL: it can. */
static const char *guest_fault(const struct config *config, const struct host *host,
                               unsigned number)
{
    const struct config_guest *guest = &config->guests[number];
    struct guest_terms terms = terms_of(guest, usually_strict(config, host));
    const char *fault = host_refuses_alone(host, guest->name, &terms),
               *folder = host->folder ? host->folder : config->fixed.folder;
    if (!fault && shares_limit(config, host, number))
        fault = limit_of_another;
    return fault || seat_has_path(folder, guest->name) ? fault : strerror(ENAMETOOLONG);
}

bool apply_fits(const char *file, const struct config *config, const struct host *host)
{
    unsigned count = count_with(config, host);
    bool good =
        count <= host->most ||
        say_fault("%s: %u guests, with what was changed, and the host may have %u: --guests", file,
                  count, host->most);
    good &= sizes_fit(file, config, host);
    for (unsigned i = 0; i < config->count; i++) {
        const char *fault = guest_fault(config, host, i);
        if (fault)
            say_fault("%s: guest %s: %s", file, config->guests[i].name, fault);
        good &= !fault;
    }
    return good;
}

void apply_sizes(const char *file, struct host *host, const struct config *config)
{
    const char *fault = NULL;
    if (config->overdraft != UINT32_MAX)
        host_set_overdraft(host, 0);
    if (config->lowest_budget != UINT32_MAX)
        host_set_lowest_budget(host, 0);
    if (config->budget != UINT32_MAX)
        fault = host_set_budget(host, config->budget);
    if (config->overdraft != UINT32_MAX && !fault)
        fault = host_set_overdraft(host, config->overdraft);
    if (config->keep != UINT32_MAX)
        host_set_keep(host, config->keep);
    if (config->lowest_budget != UINT32_MAX)
        host_set_lowest_budget(host, config->lowest_budget);
    if (config->floor != UINT32_MAX)
        host_set_floor(host, config->floor);
    if (config->patience != UINT32_MAX)
        host_set_patience(host, config->patience);
    if (config_says(config->says, KEY_STRICT))
        host_set_strict(host, config->strict);
    if (config->on_short[0])
        host->on_short = config->on_short;
    if (config->reserve != UINT32_MAX)
        host_set_reserve(host, config->reserve);
    if (config->step != UINT32_MAX)
        host_set_step(host, config->step);
    if (fault)
        say_fault("%s: %s", file, fault);
}

/* A guest as there is one, with all its terms. */
static void see_guest(const struct guest_view *view, struct config *config)
{
    struct config_guest *guest = config_new_guest(config, MOST_CHANGED_GUESTS, view->name);
    if (!guest)
        return;
    guest->terms = view->terms;
    guest->says = (UINT32_C(1) << GUEST_KEYS) - 1;
}

void apply_see(const struct host *host, struct config *config)
{
    static const enum config_key keys[] = {
        KEY_FOLDER, KEY_BUDGET, KEY_KEEP,     KEY_LOWEST_BUDGET, KEY_FLOOR, KEY_RESERVE,
        KEY_STRICT, KEY_STEP,   KEY_PATIENCE, KEY_OVERDRAFT,     KEY_PERIOD};
    struct host_view view;
    host_see(host, &view);
    config_clear(config);
    snprintf(config->fixed.folder, MOST_CONFIG_WORD, "%s", view.folder);
    snprintf(config->on_short, MOST_CONFIG_WORD, "%s", view.on_short ? view.on_short : "");
    config->budget = view.most_budget, config->keep = view.keep;
    config->lowest_budget = view.lowest_budget;
    config->floor = view.floor, config->overdraft = view.overdraft;
    config->reserve = view.reserve, config->strict = view.strict, config->step = view.step;
    config->patience = view.patience, config->fixed.period = (uint32_t)view.period;
    for (unsigned i = 0; i < sizeof keys / sizeof keys[0]; i++)
        config->says |= UINT32_C(1) << keys[i];
    if (view.on_short)
        config->says |= UINT32_C(1) << KEY_ON_SHORT;
    for (unsigned i = 0; i < view.guests; i++) {
        struct guest_view guest;
        host_see_guest(host, i, &guest);
        see_guest(&guest, config);
    }
}
