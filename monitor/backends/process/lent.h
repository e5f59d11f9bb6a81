/* A guest's process of a host that lends: it serves one client, and reports to the lender, which
 * alone decides. */
#ifndef LENT_H
#define LENT_H
#include "kept.h"
#include "marks.h"

struct lent {
    struct backend backend; /* first, as its hooks get it */
    struct kept *kept;      /* what outlives it */
    struct notes notes;
    struct marks marks;
    uint64_t messages, bytes; /* of its client that were served */
    int64_t look;             /* when it looks after itself the next time, in milliseconds */
    int64_t report_at;        /* news aren't told before this */
    int64_t reads_until;      /* until then its driver may still read its last target */
    uint64_t answers; /* the order whose report waits for the guest's statistics, and until when; 0:
                         none */
    int64_t answers_until;
    bool news;      /* something has changed since the last report */
    bool leaves;    /* the lender has said so */
    bool ends_anew; /* another process is to go on */
    bool regains;   /* the deflate that the process before held is still to be found */
    /* the deflate that is held takes no frame: it is given back without a grant */
    bool asks_nothing;
    uint32_t awaited;  /* that count in its balloon at least, as its guest has started without them,
                         and its driver hasn't put as many there yet */
    uint32_t reserved; /* pages that have room, for a guest that comes from another host, until its
                          memory has come; 0: it has, or came itself */
    uint32_t returns;  /* as many fewer of them are wanted: a deflate of these is held */
    uint32_t outside;  /* pages that may have frames though their slot was removed, as another slot
                         has their file */
    uint32_t migration; /* as the last report has it: enum lending_migration */
    uint32_t wanted;    /* pages for which it waits, and for what */
    enum lending_wait waits;
    int answered; /* 1: they may be had; -1: they may not; 0: it waits */
};

/* Milliseconds in which a driver that reads targets has read a new one. */
enum { READS_IN = 3000 };

/* The status of a process that isn't the last one of its client. */
enum { ENDS_ANEW = 75 };

/* Serves the client on what is kept, until that one goes, breaks a rule, or the lender says to
 * leave; returns the program's status. ENDS_ANEW: another process is to go on, and nothing was
 * closed. */
int lent_run(const struct options *options, struct kept *kept);

/* Notes whether the deflate that was held still is: not where its queue was stopped. */
void lent_note_held(struct lent *lent);

/* ---- awaited.c */

/* The pages that count in its balloon; and what of it waits for grants. */
uint32_t lent_ballooned(const struct lent *lent);
enum lending_hold lent_hold(const struct lent *lent);

/* Whether its guest migrates, by what its client has told: one that comes has said so, or brings a
 * device that hasn't begun. */
enum lending_migration lent_migration(const struct lent *lent);

/* A guest of `pages` pages comes from another host, with `given` of them given up: its process
 * waits for room for the others, or for all where it holds nothing back; false where there is
 * none, or where it was lent less by an earlier word of its client's, with more of them given
 * up. */
bool awaited_comes(struct backend *backend, uint32_t pages, uint32_t given);

/* It starts, or restarts, while these count in its balloon; whether it does: added memory has
 * them in it already. */
bool awaited_begin(struct lent *lent, uint32_t pages);

/* Notes what its driver has put into the balloon, and holds a deflate of awaited pages that the
 * host doesn't want there any longer. */
void awaited_note(struct lent *lent);

/* These pages have left the balloon by a grant. */
void awaited_leave(struct lent *lent, uint32_t pages);

/* ---- outside.c */

/* Its memory has changed, from `pages` of which `ballooned` counted in its balloon: what was taken
 * away, and isn't of the balloon, may be held outside of its slots. */
void outside_note(struct lent *lent, uint32_t pages, uint32_t ballooned);

/* The pages that may have frames outside of its slots. */
uint32_t lent_outside(struct lent *lent);

/* Of `added` pages that its memory has from now on, those that had their frames outside: they are
 * lent already, and don't count there any longer. */
uint32_t outside_returns(struct lent *lent, uint32_t added);

/* ---- lent_channel.c */

/* Reports at once; `number` is that of the order which asks for it. */
void lent_report(struct lent *lent, uint64_t number, bool asked);

/* Notes what was served since the last time, and reports news, or to a question, where it is time;
 * whether it has, and so has kept what it says. */
bool lent_note(struct lent *lent);

/* Obeys what the lender has sent; false where the client can't be served any longer. */
bool lent_obey(struct lent *lent);

/* Takes a later lender. */
void lent_take_lender(struct lent *lent);

/* Waits until the lender has answered for pages that are wanted, and obeys it meanwhile; false
 * where it refuses, or where the client goes or can't be served any longer. */
bool lent_await(struct lent *lent, enum lending_wait what, uint32_t pages);

/* Its driver reads the configuration, with its target. */
void lent_reads(struct lent *lent);

/* Notes a deflate that is held. */
void lent_holds(struct backend *backend, uint32_t pages);

/* Gives back the deflate that is held; false where the client can't be served any longer. */
bool lent_give(struct lent *lent);

/* Words go to the lender from now on. */
void lent_speaks(struct lent *lent);

#endif
