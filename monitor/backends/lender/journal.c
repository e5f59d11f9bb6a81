/* The decisions, kept for those who ask for them. */
#include "host.h"

#include <inttypes.h>
#include <stdlib.h>

bool journal_make(struct journal *journal, unsigned shares)
{
    unsigned room = MOST_SHARES / shares;
    *journal = (struct journal){.most = room < MOST_DECISIONS ? room : MOST_DECISIONS,
                                .most_shares = shares};
    journal->decisions = calloc(journal->most, sizeof journal->decisions[0]);
    journal->shares = calloc((size_t)journal->most * shares, sizeof journal->shares[0]);
    return journal->decisions && journal->shares;
}

void journal_add(struct host *host, const struct decision *decision)
{
    struct journal *journal = &host->journal;
    size_t place = host->counters.decisions++ % journal->most;
    struct share *shares = journal->shares + place * journal->most_shares;
    memcpy(shares, decision->shares, decision->count * sizeof shares[0]);
    journal->decisions[place] = *decision;
    journal->decisions[place].shares = shares;
}

const char *reason_word(enum reason reason)
{
    static const char *const words[] = {[BY_GUESTS] = "guests",
                                        [BY_BUDGET] = "budget",
                                        [BY_SPARE] = "spare",
                                        [BY_MISSING] = "missing",
                                        [BY_PRESSURE] = "pressure"};
    return words[reason];
}

bool reason_has_guest(enum reason reason)
{
    return reason == BY_SPARE || reason == BY_PRESSURE;
}

const char *tier_word(uint32_t tier)
{
    static const char *const words[] = {[VB_TIER_NONE] = "none",
                                        [VB_TIER_UNUSED] = "unused",
                                        [VB_TIER_CACHE] = "cache",
                                        [VB_TIER_RESERVE] = "reserve",
                                        [VB_TIER_SHORT] = "short"};
    return words[tier];
}

uint64_t journal_begin(const struct host *host)
{
    uint64_t end = host->counters.decisions;
    return end > host->journal.most ? end - host->journal.most : 0;
}

const struct decision *journal_at(const struct host *host, uint64_t number)
{
    bool is_kept = number >= journal_begin(host) && number < host->counters.decisions;
    return is_kept ? &host->journal.decisions[number % host->journal.most] : NULL;
}

static const char *bound_word(enum bound bound)
{
    static const char *const words[] = {[BY_STATISTICS] = "statistics",
                                        [BY_SILENCE] = "silence",
                                        [BY_PAUSE] = "pause",
                                        [BY_LOAN] = "loan",
                                        [BY_STALLS] = "pressure"};
    return words[bound];
}

static void print_decision(FILE *to, const struct decision *decision)
{
    fprintf(to, "ms %" PRId64 " frames %" PRIu32 " floor %" PRIu32 " short %" PRIu64, decision->at,
            decision->frames, decision->floor, decision->missing);
    fprintf(to, " tier %s why %s %s", tier_word(decision->tier), reason_word(decision->reason),
            reason_has_guest(decision->reason) ? decision->who : "-");
    for (unsigned i = 0; i < decision->count; i++) {
        const struct share *share = &decision->shares[i];
        fprintf(to,
                " | %s pages %" PRIu32 " unused %" PRIu32 " cached %" PRIu32 " spare %" PRIu32
                " most %" PRIu32 " old %" PRIu32 " target %" PRIu32 " ballooned %" PRIu32 " by %s",
                share->name, share->tiers.pages, share->tiers.unused, share->tiers.cached,
                share->tiers.spare, share->tiers.most, share->old, share->target, share->ballooned,
                bound_word(share->bound));
    }
    fputc('\n', to);
}

void journal_print(struct host *host)
{
    uint64_t end = host->counters.decisions, begin = journal_begin(host);
    if (host->printed < begin)
        host->printed = begin;
    fprintf(host->answers.out, "log %" PRIu64 "\n", end - host->printed);
    const struct decision *decision;
    for (; (decision = journal_at(host, host->printed)) != NULL; host->printed++)
        print_decision(host->answers.out, decision);
}
