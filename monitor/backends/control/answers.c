#include "answers.h"

#include "parts.h"
#include "vb.h"

#include "../base/tags.h"
#include "../lender/journal.h"
#include "../lender/measures.h"
#include "../lender/view.h"

static json_t *kibibytes(uint64_t kib)
{
    uint64_t bytes = kib * 1024;
    return json_integer((json_int_t)bytes);
}

static json_t *count(uint64_t number)
{
    return json_integer((json_int_t)number);
}

/* A limit in pages; null where there is none. */
static json_t *limit(uint32_t pages)
{
    return pages == UINT32_MAX ? json_null() : part_bytes(pages);
}

static json_t *answer_terms(const struct guest_terms *terms)
{
    char words[MOST_LIMIT_WORDS];
    const char *its = terms->limit.kind == LIMIT_NONE ? NULL : limit_words(&terms->limit, words);
    json_t *user = terms->user == ANY_USER ? json_null() : count(terms->user);
    return json_pack("{s:o, s:o, s:o, s:o, s:b, s:o, s:s?, s:o, s:o, s:o}", "least",
                     part_bytes(terms->least), "most", limit(terms->most), "priority",
                     count(terms->priority), "weight", count(terms->weight), "strict",
                     terms->strict, "overhead", part_bytes(terms->overhead), "limit", its, "user",
                     user, "memory", limit(terms->memory), "start", limit(terms->start));
}

static json_t *answer_guest_counters(const struct guest_view *guest)
{
    return json_pack("{s:o, s:o, s:o, s:o, s:o, s:o, s:o, s:o, s:o, s:o, s:o, s:o, s:o, s:o, s:o}",
                     "refusals", count(guest->refusals), "inflated", part_bytes(guest->inflated),
                     "deflated", part_bytes(guest->deflated), "granted", part_bytes(guest->granted),
                     "reported", part_bytes(guest->reported), "taken", part_bytes(guest->taken),
                     "discarded", part_bytes(guest->discarded), "skipped",
                     part_bytes(guest->skipped), "statistics", count(guest->statistics), "told",
                     count(guest->told), "chains", count(guest->chains), "kicks",
                     count(guest->kicks), "clients", count(guest->clients), "lost",
                     count(guest->lost), "limit_failures", count(guest->limit_failures));
}

static json_t *answer_guest_memory(const struct guest_view *guest)
{
    return json_pack("{s:o, s:o, s:o, s:o, s:o, s:o, s:o, s:o, s:o, s:o, s:o, s:o}", "memory",
                     part_bytes(guest->pages), "held", kibibytes(guest->held_kib), "loan",
                     part_bytes(guest->loan), "asked", part_bytes(guest->asked), "limit",
                     part_bytes(guest->limit), "excess", part_bytes(guest->excess), "target",
                     part_bytes(guest->target), "ballooned", part_bytes(guest->ballooned), "actual",
                     part_bytes(guest->actual), "free", part_bytes(guest->free), "available",
                     part_bytes(guest->available), "spare", part_bytes(guest->spare));
}

/* Its last statistics that have names. A larger number than JSON has is its largest. */
static json_t *answer_statistics(const struct guest_view *guest)
{
    json_t *answer = json_object();
    for (unsigned i = 0; i < guest->figure_count; i++) {
        const VbStatistic *its = &guest->figures[i];
        uint64_t shown = its->value < INT64_MAX ? its->value : INT64_MAX;
        if (tag_is_known(its->tag))
            answer = part_set(answer, tag_name(its->tag), count(shown));
    }
    return answer;
}

json_t *answer_guest(const struct guest_view *guest)
{
    json_t *refused = guest->refused_for ? json_pack("{s:s, s:o}", "for", guest->refused_for,
                                                     "bytes", part_bytes(guest->refused_by))
                                         : json_null();
    json_t *answer = json_pack(
        "{s:o, s:s, s:s, s:i, s:s, s:s, s:s, s:f, s:s, s:f, "
        "s:b, s:b, s:b, s:b, s:f, s:f, s:o, s:o, s:o}",
        "refused", refused, "name", guest->name, "socket", guest->path, "process",
        (int)guest->process, "version", guest->version, "state", guest_state_word(guest->state),
        "waits_for", guest_wait_word(guest->waits_for), "waits", guest->waits, "migration",
        guest->migration, "migrating", guest->migrating, "answers", guest->answers, "reports",
        guest->reports, "cooperates", guest->cooperates, "pressed", guest->pressed, "silent",
        guest->silent, "process_silent", guest->process_silent, "terms",
        answer_terms(&guest->terms), "statistics", answer_statistics(guest), "counters",
        answer_guest_counters(guest));
    return part_update(answer, answer_guest_memory(guest));
}

static json_t *answer_host_counters(const struct host_view *view)
{
    return json_pack("{s:o, s:o, s:o, s:o, s:o, s:o, s:o, s:o, s:o, s:o, s:o, s:o}", "looks",
                     count(view->looks), "above", count(view->above), "peak",
                     kibibytes(view->peak_kib), "decisions", count(view->decisions), "changed",
                     count(view->changed), "shorts", count(view->shorts), "admitted",
                     count(view->admitted), "refused", count(view->refused), "gone",
                     count(view->gone), "dropped", count(view->dropped), "shortages",
                     count(view->shortages), "command_failures", count(view->command_failures));
}

static json_t *answer_control_counters(const struct control_counters *its)
{
    return json_pack("{s:o, s:o, s:o, s:o, s:o, s:o}", "clients", count(its->clients), "accepted",
                     count(its->accepted), "dropped", count(its->dropped), "turned_away",
                     count(its->turned_away), "requests", count(its->requests), "refused",
                     count(its->refused));
}

static json_t *answer_durations(const struct durations *durations)
{
    json_t *bounds = json_array(), *counts = json_array();
    for (unsigned i = 0; i < DURATION_BOUNDS; i++)
        bounds = part_append(bounds, json_real(duration_bounds[i]));
    for (unsigned i = 0; i <= DURATION_BOUNDS; i++)
        counts = part_append(counts, count(durations->counts[i]));
    return json_pack("{s:o, s:o, s:f}", "bounds", bounds, "counts", counts, "sum", durations->sum);
}

/* What the lender has measured. */
static json_t *answer_measures(void)
{
    const struct measures *its = measures_see();
    json_t *gone = json_object(), *ungranted = json_object();
    for (unsigned i = 0; i < GONE_REASONS; i++)
        gone = part_set(gone, gone_reason_word(i), count(its->gone[i]));
    for (unsigned i = WAS_GRANTED + 1; i < WAIT_ENDS; i++)
        ungranted = part_set(ungranted, wait_end_word(i), count(its->ungranted[i]));
    return json_pack("{s:o, s:o, s:o, s:o, s:o, s:f, s:o}", "waits", answer_durations(&its->waits),
                     "ungranted", ungranted, "decisions", answer_durations(&its->decisions),
                     "turns", answer_durations(&its->turns), "processor",
                     answer_durations(&its->processor), "above", its->above, "gone", gone);
}

json_t *answer_host(const struct control *control, const struct host *host)
{
    struct host_view view;
    host_see(host, &view);
    return json_pack(
        "{s:s, s:s, s:i, s:i, s:o, s:o, s:o, s:o, s:o, s:o, s:o, s:s, s:o, s:o, s:o, s:o, "
        "s:o, s:o, s:o, s:i, s:i, "
        "s:i, s:i, s:i, s:b, s:f, "
        "s:o, s:s?, s:b, s:s?, s:o, s:o, s:o, s:o}",
        "version", VB_VERSION, "folder", view.folder, "guests", (int)view.guests, "most_guests",
        (int)view.most_guests, "budget", part_bytes(view.budget), "most_budget",
        part_bytes(view.most_budget), "keep", part_bytes(view.keep), "lowest_budget",
        part_bytes(view.lowest_budget), "overdraft", part_bytes(view.overdraft), "floor",
        part_bytes(view.floor), "reserve", count(view.reserve), "tier", view.tier, "step",
        count(view.step), "held", kibibytes(view.held_kib), "lent", part_bytes(view.lent),
        "missing", part_bytes(view.short_by), "wanted", part_bytes(view.wanted), "least_budget",
        part_bytes(view.least_budget), "overdrawn", part_bytes(view.overdrawn), "waiting",
        (int)view.waiting, "silent", (int)view.silent, "uncooperative", (int)view.uncooperative,
        "pressed", (int)view.pressed, "migrating", (int)view.migrating, "strict", view.strict,
        "period", (double)view.period / 1000, "patience", count(view.patience), "on_short",
        view.on_short, "short", view.is_short, "gives_first", view.gives_first, "counters",
        answer_host_counters(&view), "control",
        answer_control_counters(&control->sockets[MAY_CHANGE].counters), "status",
        answer_control_counters(&control->sockets[MAY_LOOK].counters), "measures",
        answer_measures());
}

json_t *answer_log(const struct host *host, uint64_t since, uint64_t limit)
{
    struct host_view view;
    host_see(host, &view);
    uint64_t kept = journal_begin(host), next = since > kept ? since : kept,
             lost = since < kept ? kept - since : 0;
    json_t *decisions = json_array();
    for (; decisions && next < view.decisions && json_array_size(decisions) < limit; next++)
        decisions = part_append(decisions, answer_decision(host, next));
    next = next < view.decisions ? next : view.decisions;
    return json_pack("{s:b, s:o, s:o, s:o}", "ok", 1, "decisions", decisions, "next", count(next),
                     "lost", count(lost));
}
