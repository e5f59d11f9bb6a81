/* Days of a strict host whose guests are simulated, in a time of its own. The lender is its program
 * as it is: the linker puts these functions between it and the kernel's clock, and where it waits,
 * what its guests do happens. Each guest has the process that a lender knows, a driver as Linux's,
 * and work to do. Each of their steps takes a moment, at random a long one. Nothing else is random:
 * a day of one number is always the same. A lender may end at any time: then the program restarts,
 * and all that is simulated is in memory that outlives it. */
#ifndef DAYS_H
#define DAYS_H
#include "../../../backends/channel/message.h"

#include <poll.h>
#include <stdbool.h>
#include <stdint.h>

/* Microseconds; the longest that a step takes; pages of a request of Linux's, and those that nobody
 * may have but the kernel itself. */
enum {
    MILLISECOND = 1000,
    SECOND = 1000 * MILLISECOND,
    LONGEST = 5 * SECOND / 2,
    PAGES_OF_REQUEST = 256,
    KERNEL_KEEPS = 512
};

/* What the environment says of a day: each is 0 where it doesn't. */
struct plan {
    unsigned seconds, guests, budget, reboots, beyond, slow, killed, overdraft, moves, loses,
        weight;
};

/* Messages of one direction that nobody has read yet, the next of them first. As many as the kernel
 * has room for in a socket. */
enum { MOST_MAIL = 93 };
struct mail {
    unsigned first, count;
    struct lending_message messages[MOST_MAIL];
};

/* What a kernel counts of its reclaim, in pages but for the stalls. */
struct reclaims {
    uint64_t stalls, async_scanned, scanned, async_reclaimed, reclaimed;
};

/* What somebody of a guest waits for. */
struct wait {
    bool waits;
    int64_t since;
};

struct guest {
    unsigned number;
    uint32_t pages, used; /* its memory, and what its kernel and its programs use of it */
    uint32_t cached;      /* beside that its page cache */
    struct reclaims reclaims;
    /* Its process: what it reports, where it speaks to the lender, and what is on the queues of its
     * device. */
    struct lending_message report;
    int listener, channel;
    struct mail orders, reports; /* to its process, and from there */
    bool turns, news;            /* it is about to have a turn; it has something to report */
    int64_t reports_at;
    uint64_t answers; /* the number of the question that is to be answered; 0: none */
    int64_t answers_until;
    uint64_t statistics; /* those of its last report, and the questions for some since then */
    unsigned unanswered;
    int64_t silent_at;            /* when it had last left three of those unanswered */
    uint32_t target, read_target; /* the last one that it has heard, and that its driver has read */
    uint32_t reminded;            /* what was in the balloon at the last target or reminder */
    uint32_t inflates, deflates;  /* pages of the requests that are on its queues */
    uint32_t told, granted; /* the last target, and wait, of the orders that the lender has sent */
    uint32_t least_told;    /* of its targets, from the last that the lender knows as read */
    int64_t told_at;
    struct wait held, reset;
    /* Its driver: what it has in the balloon, and in the deflate that it waits for. */
    uint32_t balloon, leaks;
    bool locked; /* a request is on its way, or about to be */
    bool worker_waits, work_is_queued, out_of_memory;
    /* Its work. */
    bool reboots;           /* it reboots after each of its works */
    uint32_t wants, filled; /* pages that it still takes, and what it has filled */
    uint64_t works;
};

typedef void act(struct guest *guest);

/* What is to happen. */
struct step {
    int64_t at;
    struct guest *guest;
    act *act;
};

enum { MOST_GUESTS_OF_DAY = 16, MOST_STEPS = 1024 };

/* All that outlives a lender. */
struct day {
    struct plan plan;
    int64_t now;         /* since it began */
    int64_t lender_ends; /* when the lender ends, and until when there is none then */
    int64_t lender_begins;
    uint64_t random;
    struct guest guests[MOST_GUESTS_OF_DAY];
    unsigned size;
    struct step steps[MOST_STEPS];
    unsigned count;
    uint32_t budget, left;            /* pages; left: that nobody uses, and somebody may */
    int64_t seen[MOST_GUESTS_OF_DAY]; /* when each guest was last looked at */
    int64_t waited, longest;
    /* Where the working set moves: which shift it is, when it ends, when something was read from a
     * disk, and since when the busy guest, which had as many pages then, has none from the host. */
    unsigned shifts;
    int64_t shift_ends, read_at, came_at;
    uint32_t had;
    uint64_t lenders; /* that have ended */
};

extern struct day *day;

static inline uint32_t smaller(uint32_t one, uint32_t other)
{
    return one < other ? one : other;
}

/* ---- time.c */

/* Begins the day that the environment names, or resumes the one of the lender before; whether
 * it begins. A lender has these words. */
bool day_begins(char **words);

/* Has something be done of a guest after a while, or after a moment as one of its steps takes; and
 * nothing more of it. */
void later(struct guest *guest, act *act, int64_t microseconds);
void soon(struct guest *guest, act *act);
void forget(const struct guest *guest);

/* A number from `least` to `most`. */
uint32_t chance(uint32_t least, uint32_t most);

/* ---- mail.c */

/* What nobody has read of a guest's messages is lost. */
void mail_forget(struct guest *guest);

/* Says of which of these files of a lender reports are to be read; how many these are. */
int mail_came(struct pollfd *files, size_t number);

/* ---- process.c */

/* A process begins, and reports once a lender comes; a lender has ended. */
void process_begins(struct guest *guest, const char *folder);
void process_is_alone(struct guest *guest);

/* Takes a lender that comes, and has a turn where something is to be read, if a lender may have
 * come or sent something; or where it has something to report. */
void process_hears(struct guest *guest, bool may_be_sent);

/* Its driver reads its target. */
void process_is_read(struct guest *guest);

/* A request is on one of its queues. */
void process_kicked(struct guest *guest);

/* Its guest restarts; calls driver_begins once what was in the balloon may be had. */
void process_reset(struct guest *guest);

/* ---- driver.c */

/* The configuration has changed; a request of each queue is used. */
void driver_is_told(struct guest *guest);
void driver_inflated(struct guest *guest);
void driver_deflated(struct guest *guest);

/* It takes memory for its work, which then resumes with work_is_filled. */
void driver_fills(struct guest *guest, uint32_t pages);

/* A new life begins, whose balloon is empty. */
void driver_begins(struct guest *guest);

/* Pages that nobody has; those that may be had, the page cache among them. */
uint32_t driver_free(const struct guest *guest);
uint32_t driver_spare(const struct guest *guest);

/* As many pages are about to be used: what isn't free is reclaimed, while its user waits, or in the
 * background; whether some was. */
bool driver_frees(struct guest *guest, uint32_t pages, bool waits);

/* ---- moves.c */

/* The first shift begins; demands what a day of shifts has to have; a balloon takes page cache. */
void moves_begin(void);
void moves_look(void);
void moves_gives_cache(void);

/* ---- town.c */

/* Its memory is filled; a new life has booted. */
void work_is_filled(struct guest *guest);
void work_begins(struct guest *guest);

/* Demands that guests have no more than the budget, that nobody waits for good, and that each one
 * hears its target. */
void town_looks(void);

/* The lender sends an order to a guest. Demands that above the budget nobody gets pages that others
 * still give. */
void town_hears(struct guest *guest, const struct lending_message *order);

/* The lender reads a report of a guest. */
void town_is_heard(struct guest *guest, const struct lending_message *report);

/* The day ends, by a fault where words say so. */
void town_ends(const char *fault, const struct guest *guest);

#endif
