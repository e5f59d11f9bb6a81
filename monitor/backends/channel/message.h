/* What the lender and a guest's process say to each other: messages of one size over a
 * SOCK_SEQPACKET socket, in both directions. Neither waits for the other: a message for which there
 * is no room is dropped and counted. Nothing is lost by that, since each report says all again, and
 * each order is given again until a report shows that it was obeyed. */
#ifndef MESSAGE_H
#define MESSAGE_H
#include "../balloon/backend.h"

#include <sys/types.h>

/* Memory of a guest may end at page MOST_SET, 64 GiB, as its process has a set of its pages. */
enum { LENDING_VERSION = 1, MOST_WORDS = 256, MOST_VERSION = 32, MOST_SET = 1 << 24 };

enum lending_kind {
    /* Of the lender. */
    ORDER_LOOK = 1,  /* report; and, where `asks` is set, ask the guest for its statistics */
    ORDER_REMIND,    /* tell the guest its target again, where its balloon stays off it */
    ORDER_TARGET,    /* the host wants `target` pages in the balloon */
    ORDER_ADMIT,     /* there is room for the pages that it waits for */
    ORDER_REFUSE,    /* there is none */
    ORDER_GRANT = 7, /* the deflate that is held has its pages; 6 was an order of 0.3.0 */
    ORDER_LEAVE,     /* end */
    /* Of a guest's process. */
    TELL_REPORT,  /* all that it is */
    TELL_REFUSED, /* its client isn't served any longer, by `words` */
    TELL_REMARK,  /* words, while all continues */
    TELL_GONE,    /* its client has gone; the process ends */
    /* Of the lender: the numbers above stay, as processes of other versions know them. */
    ORDER_RENEW, /* another process takes over, of the program that is there now */
};

/* For what a guest's process waits before it answers its client. */
enum lending_wait { WAIT_NOTHING, WAIT_ROOM, WAIT_RESET };

/* Whether a guest leaves for another host, or a file, as what its device writes is logged; or comes
 * from one, until its queues start. */
enum lending_migration { MIGRATES_NOT, MIGRATES_OUT, MIGRATES_IN };

/* What of a guest waits for its grant: nothing; its deflates and resets, of a process of 0.3.0; and
 * it may start with less than its memory; it has, and its driver hasn't put as much into the
 * balloon yet. */
enum lending_hold { HOLDS_NOTHING, HOLDS_DEFLATES, MAY_START_SMALL, HAS_STARTED_SMALL };

/* The terms that a process of 0.3.0 keeps for the lender that comes after its own. */
struct kept_terms {
    uint32_t least, most, priority, strict;
};

struct lending_message {
    uint32_t version, kind;
    uint64_t number; /* of an order to look: the report that answers it has the same; 0: none */
    uint64_t serial; /* of a report: how many there were */
    uint64_t held_kib, end; /* what the memory's files hold; the page at which memory ends */
    uint64_t lost;          /* messages of the process that found no room */
    uint32_t pages;         /* of its memory that has room */
    uint32_t wanted;        /* pages that it waits for */
    uint32_t wait;          /* how many times it has waited: the answer has the same number */
    uint32_t holds;         /* enum lending_hold */
    uint32_t held_pages;    /* pages of the deflate that is held; 0: none is */
    uint32_t held_wait;     /* how many were held: the grant has the same number */
    uint32_t waits;         /* enum lending_wait */
    /* Of an order to admit: what counts in its balloon from then on, and its target. */
    uint32_t target, actual, ballooned, status, ready;
    union {
        uint32_t asks;   /* of an order: whether to ask for statistics */
        uint32_t obeyed; /* of a report: 1 more than the target that the driver has read last; 0: it
                            reads none */
    };
    uint32_t asked;          /* whether the guest could be asked */
    uint32_t ballooned_then; /* what was in the balloon at its last statistics, or when it took
                                pages itself after them */
    uint32_t taken_since;    /* it has taken pages itself after its last statistics */
    uint32_t has_terms;      /* unless 0, `terms` are those of a lender of 0.3.0 */
    uint32_t figure_count;
    union {
        struct kept_terms terms;
        uint32_t outside; /* of a report without terms: pages that have frames outside of its memory
                             slots, of memory that was taken away; an older process says 0 */
    };
    struct counters counters;
    VbStatistic figures[MOST_TAGS];
    union {
        char words[MOST_WORDS];
        struct {                        /* of a report */
            char program[MOST_VERSION]; /* the version of the process */
            uint32_t migration;         /* enum lending_migration; an older process says 0 */
        };
    };
};

/* The pages outside of its memory's slots by a report; one with terms doesn't say. */
static inline uint32_t lending_outside(const struct lending_message *report)
{
    return report->has_terms ? 0 : report->outside;
}

/* The files with which a guest's process begins: where its client comes, its end of the channel,
 * and where a later lender comes. */
enum { CLIENT_FILE = 3, CHANNEL_FILE, LATER_FILE, FILES_OF_GUEST };

/* Sends a message; false where there is no room, or nobody at the other end. */
bool lending_send(int channel, struct lending_message *message);

/* Reads the messages that have come, at most `most`, which is MOST_AT_ONCE at most: how many;
 * `*ended` where the other end has gone after them, or has sent something else. */
enum { MOST_AT_ONCE = 16 };
unsigned lending_read(int channel, struct lending_message messages[], unsigned most, bool *ended);

/* Reads the next message of a channel that names senders: 1; 0 where there is none yet; -1 where
 * the other end has gone, or has sent something else. With the number of the process that has sent
 * it, by the kernel's word; 0 where that isn't known. */
bool lending_names_senders(int channel);
int lending_read_from(int channel, struct lending_message *message, pid_t *sender);

#endif
