/* The journal of decisions, as JSON. */
#include "answers.h"
#include "parts.h"

#include "../lender/journal.h"

static json_t *answer_share(const struct share *share)
{
    return json_pack("{s:s, s:o, s:o, s:o, s:o, s:b}", "guest", share->name, "memory",
                     part_bytes(share->tiers.pages), "spare", part_bytes(share->tiers.spare), "old",
                     part_bytes(share->old), "target", part_bytes(share->target), "pressed",
                     share->pressed);
}

json_t *answer_decision(const struct host *host, uint64_t number)
{
    const struct decision *its = journal_at(host, number);
    if (!its)
        return NULL;
    json_t *shares = json_array();
    for (unsigned i = 0; i < its->count; i++)
        shares = part_append(shares, answer_share(&its->shares[i]));
    return json_pack("{s:I, s:f, s:f, s:s, s:s, s:s, s:o, s:o, s:o, s:o}", "number",
                     (json_int_t)number, "seconds", (double)its->at / 1000, "time",
                     part_time(its->at), "reason", reason_word(its->reason), "tier",
                     tier_word(its->tier), "guest", reason_has_guest(its->reason) ? its->who : "",
                     "budget", part_bytes(its->frames), "floor", part_bytes(its->floor), "missing",
                     part_bytes(its->missing), "shares", shares);
}
