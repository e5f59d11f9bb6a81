/* What the lender knows of itself and of each guest, and what may be changed: for a control socket,
 * for metrics and for the lines of standard input alike. Nothing here waits, and nothing asks a
 * guest's process: numbers are those of its last report. */
#ifndef VIEW_H
#define VIEW_H
#include "journal.h"
#include "limit.h"
#include "owner.h"
#include "vb_types.h"

#include "../channel/message.h"

#include <stdbool.h>
#include <stddef.h>
#include <stdint.h>
#include <sys/types.h>

struct host;

/* What a guest is just now. */
enum guest_state {
    GUEST_ABSENT,   /* nobody is at its socket */
    GUEST_COMING,   /* a client is there, and hasn't handed over its memory */
    GUEST_WAITING,  /* its memory waits for room */
    GUEST_STARTING, /* it has room, and its driver isn't ready */
    GUEST_READY,
    GUEST_LEAVING, /* its client has gone, its process hasn't ended yet: it may still hold memory */
};

/* What it waits for. */
enum guest_wait { WAITS_FOR_NOTHING, WAITS_FOR_ROOM, WAITS_FOR_DEFLATE, WAITS_FOR_RESET };

/* Why memory isn't admitted: it has no room; it is more than the terms allow, or less than what the
 * guest is to start with. */
enum refusal { REFUSED_NOTHING, REFUSED_ROOM, REFUSED_MEMORY, REFUSED_START };

/* How a wait ended: withdrawn is one whose guest has gone, or waits for something else, or for
 * nothing, without an answer. */
enum wait_end { WAS_GRANTED, WAS_REFUSED, WAS_WITHDRAWN, WAIT_ENDS };

/* A wait of a guest that ended. */
struct ended_wait {
    uint64_t number; /* how many have; 0: none */
    enum guest_wait what;
    enum wait_end how;
    double seconds;
};

/* What was agreed with a guest; sizes are pages. */
struct guest_terms {
    uint32_t least; /* frames that always stay to it, as far as it has them; 0: none */
    uint32_t most;  /* frames that it may hold at most, whatever the budget leaves; UINT32_MAX: all
                       it has */
    uint32_t priority; /* those of a lower one give first */
    uint32_t weight;   /* its part of what needn't be given, from 1 on */
    bool strict;       /* its deflates and resets wait for their grant, and it waits for room as it
                   * comes */
    uint32_t overhead; /* frames that it may hold beside its loan: the VMM's own, and memory that
                          isn't handed over */
    struct guest_limit limit; /* the kernel has it hold no more than its loan and its overhead */
    uint32_t user;            /* of its client; ANY_USER: of any */
    uint32_t memory;          /* that its client may bring at most; UINT32_MAX: any */
    uint32_t start; /* frames that it may hold at first, until it is lent more; UINT32_MAX: all that
                       it may have */
};

/* The overhead of a guest of whom nothing was said. */
enum { USUAL_OVERHEAD = 64 * 256 };

/* Bytes of a socket's path, with its end. */
enum { MOST_PATH = 108 };

/* One guest. Pages are of 4096 bytes; seconds have fractions, and are 0 where there is nothing to
 * count. */
struct guest_view {
    char name[MOST_NAME];
    char path[MOST_PATH];       /* of the socket where its client comes */
    pid_t process;              /* that serves it; 0: none, or none that has reported */
    char version[MOST_VERSION]; /* of its process, as that one says: letters, digits, dots and
                                   signs; empty where it says none */
    enum guest_state state;
    struct guest_terms terms;
    uint32_t pages;    /* of its memory */
    uint64_t held_kib; /* what its files have in blocks on the host */
    uint32_t loan;     /* frames that are lent to it */
    uint32_t excess;   /* frames that it holds above its loan */
    uint32_t asked;    /* frames for which it waits */
    uint64_t granted; /* frames that were lent to it since it came, as it asked for them or was told
                         to take them */
    uint64_t limit;   /* frames that its limit was written to last; 0: it wasn't yet */
    uint64_t limit_failures; /* how often its limit couldn't be written */
    uint32_t target, ballooned, actual;
    uint32_t free, available; /* as it told them last; 0 where it didn't */
    uint32_t spare;           /* what it can spare by these numbers, what is ballooned included */
    bool answers;             /* its statistics have come within three periods */
    bool reports;    /* its process has answered within three periods; true where there is none */
    bool cooperates; /* it hasn't taken pages unasked since it came */
    bool pressed;    /* its own work waits for memory, or did just now */
    enum guest_wait waits_for;
    double waits;            /* seconds, for that */
    const char *migration;   /* a word: none, outgoing or incoming */
    double migrating;        /* seconds, as far as this lender knows */
    struct ended_wait ended; /* its last wait that ended */
    const char *refused_for; /* why its last client wasn't admitted: room, memory or start; NULL
                                once one was */
    uint64_t refused_by;     /* pages that were missing then, or too many */
    uint64_t refusals;       /* clients that weren't admitted */
    double silent;           /* seconds since its last statistics */
    double process_silent;   /* seconds since its process answered last */
    uint64_t inflated, deflated, reported, taken, statistics, told, discarded, skipped, chains,
        kicks;                      /* see counters.h */
    VbStatistic figures[MOST_TAGS]; /* its last statistics */
    unsigned figure_count;
    uint64_t clients; /* how many have come to its socket */
    uint64_t lost;    /* messages that its process or the lender didn't read in time */
};

/* All of them together. */
struct host_view {
    const char *folder;
    unsigned guests, most_guests; /* how many seats there are, taken or not, and may be */
    uint32_t budget, overdraft, floor;
    uint32_t
        most_budget; /* what the operator says: the budget is less where the machine has no more
                             to leave */
    uint32_t keep,
        lowest_budget;       /* pages that the machine is to keep available, 0: it needn't; below
                                    the second the budget doesn't fall for it */
    uint32_t reserve;        /* percent */
    const char *tier;        /* up to which guests give: a word */
    uint32_t step;           /* a guest's pages divided by it, in a second */
    uint64_t held_kib, lent; /* lent: frames of all loans together */
    uint64_t short_by;       /* pages by which the guests can't give what is missing */
    /* what guests that wait take in the end beyond what is lent to them, as their statistics say,
     * and the least budget with which all of them have it */
    uint64_t wanted, least_budget;
    uint32_t patience;       /* seconds */
    const char *on_short;    /* the operator's command; NULL: none */
    bool is_short;           /* they couldn't for that long */
    const char *gives_first; /* who had the lowest priority then; NULL: nobody */
    uint64_t overdrawn;      /* frames that are lent above the budget */
    unsigned waiting, silent, uncooperative, pressed, migrating; /* guests */
    bool strict;    /* of a guest that comes without terms of its own */
    int64_t period; /* milliseconds */
    uint64_t looks, above, peak_kib, decisions, changed, shorts, admitted, refused, gone;
    uint64_t shortages, command_failures; /* that lasted; of the command for these */
    uint64_t dropped;                     /* lines of words or answers that nobody read in time */
};

/* What there is; `number` is below guests. A guest's name finds its number: -1 where nobody has
  * it. */
void host_see(const struct host *host, struct host_view *view);
void host_see_guest(const struct host *host, unsigned number, struct guest_view *view);
int host_find(const struct host *host, const char *name);

/* The terms of a guest of whom nothing was said. */
struct guest_terms host_usual_terms(const struct host *host);

/* What may be changed: NULL, or why it wasn't, in words for one line. Numbers are pages. Each is
 * looked at again at once. */
const char *host_set_budget(struct host *host, uint32_t pages);

/* Sets how many pages the machine is to keep available (0: it needn't), and below which budget it
 * doesn't. */
void host_set_keep(struct host *host, uint32_t pages);
void host_set_lowest_budget(struct host *host, uint32_t pages);
const char *host_set_floor(struct host *host, uint32_t pages);
const char *host_set_overdraft(struct host *host, uint32_t pages);
const char *host_set_patience(struct host *host, uint32_t seconds);
const char *host_set_reserve(struct host *host, uint32_t percent);
/* Whether guests are strict of which nothing else was said, from the next client of each on; and
 * how fast targets grow. */
void host_set_strict(struct host *host, bool strict);
void host_set_step(struct host *host, uint32_t step);
const char *host_add(struct host *host, const char *name, const struct guest_terms *terms);
const char *host_remove(struct host *host, const char *name);
const char *host_set_terms(struct host *host, const char *name, const struct guest_terms *terms);
/* Why it can't be set, or added; NULL: it can, as far as nothing of the kernel's is missing. */
const char *host_budget_fault(const struct host *host, uint32_t pages);
const char *host_cannot_add(const struct host *host, const char *name,
                            const struct guest_terms *terms);
/* Why no guest can have these terms, and by which of them; NULL: one can. */
const char *terms_fault(const struct guest_terms *terms, const char **term);
/* Why a guest of this name, which there may be, can't have these terms; NULL: it can. The
 * second one asks for no guest that has its limit. */
const char *host_refuses(const struct host *host, const char *name,
                         const struct guest_terms *terms);
const char *host_refuses_alone(const struct host *host, const char *name,
                               const struct guest_terms *terms);
extern const char limit_of_another[];
/* Why no target can be set by hand; NULL: one can. It stays until all is decided again. */
const char *host_refuses_target(const struct host *host, const char *name);
const char *host_set_target(struct host *host, const char *name, uint32_t pages);

/* An upgrade: the lender ends this turn as the program that is there now, where that runs; and a
 * guest's process is to go on as the one that is there now, which its next report shows. One that
 * waits for pages isn't asked in vain: it has to be asked again. */
const char *host_upgrade(struct host *host);
const char *host_renew(struct host *host, const char *name);

/* The words for a state, for what is waited for and for how a wait ended, of one word each. */
const char *guest_state_word(enum guest_state state);
const char *guest_wait_word(enum guest_wait wait);
const char *wait_end_word(enum wait_end how);
const char *refusal_word(enum refusal refusal); /* NULL where there was none */

#endif
