/* What was decided, and why: the last decisions are kept. */
#ifndef JOURNAL_H
#define JOURNAL_H
#include "vb_policy.h"

#include <stdbool.h>

struct host;

enum {
    USUAL_GUESTS = 64,
    MOST_GUESTS = 1024,
    MOST_NAME = 32, /* bytes of a name, with its end */
    /* decisions that are kept: as many as there is room for with each guest's share, and no more */
    MOST_SHARES = 1 << 16,
    MOST_DECISIONS = 512,
};

enum reason { BY_GUESTS, BY_BUDGET, BY_SPARE, BY_MISSING, BY_PRESSURE };

/* What a guest can spare goes by this. */
enum bound { BY_STATISTICS, BY_SILENCE, BY_PAUSE, BY_LOAN, BY_STALLS };

struct share {
    char name[MOST_NAME];
    VbTiers tiers;
    enum bound bound;
    bool pressed; /* its own work waits for memory */
    uint32_t ballooned, old, target;
};

struct decision {
    int64_t at;                   /* by the monotonic clock, in milliseconds */
    uint32_t frames, floor, tier; /* tier: up to which guests give, VB_TIER_NONE .. */
    uint64_t missing;             /* 0, or by how much the guests fall short */
    enum reason reason;
    char who
        [MOST_NAME]; /* BY_SPARE: the guest that is asked for more than it can spare; BY_PRESSURE:
                            the pressed one that gets pages back */
    unsigned count;
    const struct share *shares;
};

struct journal {
    struct decision *decisions; /* decision n has its place at n % most */
    struct share *shares;       /* of each place */
    unsigned most, most_shares; /* decisions; shares of one */
};

/* Makes room for decisions about up to `shares` guests; false where there is no memory. */
bool journal_make(struct journal *journal, unsigned shares);

const char *reason_word(enum reason reason);

/* Whether a decision for this reason is about one guest, who. */
bool reason_has_guest(enum reason reason);

/* The word for a tier. */
const char *tier_word(uint32_t tier);

/* Keeps a decision. */
void journal_add(struct host *host, const struct decision *decision);

/* Prints the decisions since the last time, each on a line. */
void journal_print(struct host *host);

/* The number of the first decision that is kept. */
uint64_t journal_begin(const struct host *host);

/* The decision of this number; NULL where it isn't kept. */
const struct decision *journal_at(const struct host *host, uint64_t number);

#endif
