/* The structs of a host's lender, and where their fields are. A part of vb_host.h. */
#ifndef VB_HOST_TYPES_H
#define VB_HOST_TYPES_H
#include "vb_types.h"

/* In which line a deflate waits. Those of an earlier line come before all of a later one, and those
 * of one line in the order of their turns. Any other number is VB_LINE_ARRIVALS. */
enum {
    VB_LINE_DEFLATES = 0, /* a guest that waits in a deflate gives no pages */
    VB_LINE_RESETS = 1,   /* of a guest that boots again: all that is in its balloon */
    VB_LINE_ARRIVALS = 2, /* of newcomers, and of memory that is added */
};

/* What a guest's process reports: what it is at that moment. Any numbers may come. */
typedef struct {
    uint32_t ballooned; /* pages in its balloon, without those that couldn't be discarded */
    uint32_t target;    /* the last target that it has received, in pages */
    /* The target that its driver has read last, in pages; where reads aren't seen, one that it may
     * have read. */
    uint32_t read_target;
    uint32_t held;          /* pages of the deflate that it holds back; 0 where it holds none */
    uint32_t line;          /* in which that deflate waits: VB_LINE_DEFLATES .. */
    uint32_t outside;       /* pages of memory that was taken away which still have frames */
    uint64_t target_number; /* of the last target that it has received */
    /* How many deflates it has held back, this one included: the number of this one. */
    uint64_t deflates;
    uint64_t removed; /* pages that were taken away from its memory so far */
} VbReport;

/* What the lender knows of a guest. What is lent to it is all its pages and those outside, but
 * min(ballooned, least_target) (vb_seat_lent). */
typedef struct {
    /* Pages of its memory, which it may have frames for; 0 where no guest is there. Of a guest that
     * comes, also of files that no memory slot has. */
    uint32_t pages;
    /* Pages in its balloon, as last reported, without those of a granted deflate. */
    uint32_t ballooned;
    uint32_t least_target;  /* the least of all targets that its driver may still obey, in pages */
    uint32_t target;        /* its last target, in pages */
    uint32_t wanted;        /* pages wanted in its balloon: its target is this or above */
    uint32_t held;          /* pages of the deflate that waits; 0 where none does */
    uint32_t line;          /* in which it waits: VB_LINE_DEFLATES .. */
    uint32_t outside;       /* pages of memory that was taken away which still have frames */
    uint64_t target_number; /* of its last target: how many it was sent */
    uint64_t deflates;      /* how many its process has held back, by its last report */
    uint64_t granted;       /* the number of the last granted deflate; 0 before it was let in */
    uint64_t removed;       /* pages taken away from its memory, by its last report */
    uint64_t turn;          /* its turn among those that wait; 0 where it doesn't */
    uint32_t uncounted;     /* its balloon counts no longer; 0 where it counts */
    uint32_t preferred;     /* it comes before all others of its line; 0 where it doesn't */
    uint32_t deferred;      /* it lets others pass, in VB_LINE_ARRIVALS; 0 where it doesn't */
} VbSeat;

typedef struct {
    uint32_t frames;    /* the budget: how many frames guests may use together */
    uint32_t overdraft; /* how many beyond it VB_OVERDRAWS may lend */
} VbHost;

/* What a guest's process asks for, as `waits` of a message and `ask` of an exchange have it. */
enum {
    VB_ASK_NOTHING = 0,
    VB_ASK_ROOM = 1,  /* for memory that its guest comes with, or that is added */
    VB_ASK_RESET = 2, /* all that is in its balloon */
    VB_ASK_DEFLATE = 3,
};

/* What it holds back until that is granted. */
enum {
    VB_HOLDS_NOTHING = 0, /* its guest isn't strict */
    VB_HOLDS_DEFLATES = 1,
    VB_MAY_START_SMALL = 2, /* and its guest may start without some of its pages */
    /* And it has: its driver hasn't put those pages into the balloon yet. */
    VB_HAS_STARTED_SMALL = 3,
};

/* What a process says at a moment, and the terms on which its guest starts. Any numbers may come:
 * of `waits` those of none of the above say nothing, of `holds` they are VB_MAY_START_SMALL. */
typedef struct {
    uint32_t pages;     /* of its memory that have room */
    uint32_t wanted;    /* pages that are to have room; read where `waits` is VB_ASK_ROOM */
    uint32_t ballooned; /* pages in its balloon, without those that couldn't be discarded */
    uint32_t target;    /* the last target that it has received, in pages */
    uint32_t read;      /* 1 more than the target that its driver has read last; 0: it isn't seen */
    uint32_t held;      /* pages of the deflate that it holds back; 0 where it holds none */
    uint32_t deflate;   /* its own number of that */
    uint32_t waits;     /* for what, before it answers its client: VB_ASK_NOTHING .. VB_ASK_RESET */
    uint32_t wait;      /* its own number of that */
    uint32_t holds;     /* VB_HOLDS_NOTHING .. */
    uint32_t outside;   /* pages of memory that was taken away which still have frames */
    uint32_t files;     /* pages that its memory's files hold, also of no slot */
    uint32_t start;     /* pages that its guest is to start with; UINT32_MAX: all */
    uint32_t most;      /* pages that it may ever have; UINT32_MAX: all */
    uint32_t limited;   /* its kernel limits what it holds; 0: nothing does */
} VbMessage;

/* What the lender notes of a process from one message to the next; zeros before the first. Its
 * caller writes `sent`, `sent_by` and `obeyed`, and zeros `received` with each target it sends. */
typedef struct {
    uint32_t ask;      /* what it has asked for last: VB_ASK_NOTHING .. */
    uint32_t asked;    /* its own number of that */
    uint64_t asks;     /* how many asks there were: the number of the last one */
    uint64_t sent;     /* the number of the last target that was sent */
    uint64_t sent_by;  /* that of the first order to report after it */
    uint64_t obeyed;   /* that of the last order to report that was obeyed */
    uint64_t received; /* since when that target is known to be received, in ms; 0: it isn't */
} VbExchange;

/* What a message says. */
typedef struct {
    VbReport report; /* as VB_HEARS takes it */
    uint32_t taken;  /* pages that a strict guest has taken unasked: none is read as given back */
    uint32_t joins;  /* pages of `outside` that are in slots again, and join its memory */
    uint32_t ungranted; /* pages of its memory that nobody granted */
    uint32_t
        brings;     /* pages that it waits for, beyond its memory and all that are in slots again */
    uint32_t wants; /* pages that it waits for, beyond its memory and those that join it */
    uint32_t without; /* pages of `wanted` that its guest comes without */
    uint32_t small;   /* 1 where pages that it starts without count in its balloon, else 0 */
    uint32_t resets;  /* 1 where it waits in a reset that takes nothing, else 0 */
} VbReading;

/* What was decided of a guest, and how its host is. */
typedef struct {
    uint32_t target;   /* pages that are to be in its balloon */
    uint32_t strict;   /* its deflates wait for grants; 0: they don't */
    uint32_t ready;    /* its driver is there; 0: it isn't */
    uint32_t seconds;  /* in which its target may grow by all its pages; 0: at once */
    uint32_t needed;   /* a guest waits, or `gains`; 0: none does */
    uint32_t frames;   /* the budget */
    uint64_t held_kib; /* what files of guests' memory hold, in KiB */
    uint64_t passed;   /* milliseconds since it was last let grow; 0: it isn't to grow now */
} VbAim;

/* How its target follows that, in pages. */
typedef struct {
    uint32_t all;   /* wanted in its balloon in the end */
    uint32_t now;   /* and now: VB_WANTS */
    uint32_t rises; /* 1 where its target may grow by steps, else 0; else only `target`, `strict`,
                     * `ready` and `seconds` of the aim count */
    uint32_t gains; /* 1 where it is strict, and to get pages that others may give first, else 0 */
} VbPace;

/* Since when a host stands still, from one look to the next; zeros before the first. */
typedef struct {
    uint64_t first;      /* 1 more than the place of the guest that waits first; 0: none does */
    uint64_t lent;       /* frames that are lent to all guests together (vb_host_owed) */
    uint64_t since;      /* since when both are so, in ms */
    uint64_t head;       /* as `first`, in VB_LINE_RESETS and VB_LINE_ARRIVALS alone */
    uint64_t turn;       /* the turn of that guest; 0: none waits there */
    uint64_t head_since; /* since when both are so, in ms */
} VbStand;

/* How a host is as it looks. */
typedef struct {
    uint64_t time;     /* now, in ms */
    uint64_t missing;  /* pages that guests can't give of those that are missing; 0: they can */
    uint32_t patience; /* seconds for which the guest at `head` keeps others waiting */
    uint32_t awaits;   /* a guest of an earlier lender hasn't reported yet; 0: all have */
} VbLook;

/* What is to be done then: an event, by its kind and guest. */
typedef struct {
    uint32_t kind; /* VB_OVERDRAWS, VB_PREFERS or VB_DEFERS; 0: nothing is */
    size_t guest;
} VbRelief;

/* What may happen to a lender: `kind` of an event, and which of its other fields that reads. Where
 * there is no seat at a place, or the event isn't possible, it has no effect. */
enum {
    /* guest, report: its process has reported. Its balloon is counted: never fewer pages than
     * before, but for granted deflates and what was taken away. Of what was taken away, and wasn't
     * in the balloon, any pages may stay `outside`; a report of more of those, or of fewer pages in
     * the balloon, says nothing of its memory (VB_TAKES_OVER counts them). A deflate that lends
     * nothing more is granted. Once its driver has read its last target, least_target rises to
     * that. A deflate that waits from now on gets the next turn. No effect: a report of before the
     * last grant, or of before memory was taken away that is known of. */
    VB_HEARS = 1,
    /* guest: its deflate is granted. Possible where that lends nothing more, or it is the first
     * that waits and there is room. */
    VB_GRANTS = 2,
    /* guest: its deflate is granted from the overdraft. Possible where it is the first that waits,
     * all others wait or have in their balloons what their targets say, and there is room with the
     * overdraft. */
    VB_OVERDRAWS = 3,
    /* guest, pages: these are wanted in its balloon. */
    VB_WANTS = 4,
    /* guest: it has the target from now on that is possible: what is wanted, or min(ballooned,
     * least_target) less what there is room for, whichever is more. There is no room for one that
     * waits, or of which no deflate was granted yet. */
    VB_TARGETS = 5,
    /* guest, pages, ballooned: another guest is at this place, with all its pages in its balloon.
     * It waits once it has reported its first deflate, of all but `ballooned`, which are wanted in
     * its balloon. Of no pages: the guest has gone. */
    VB_ARRIVES = 6,
    /* guest, added: the memory at the place `added`, which waited as a guest of its own, joins the
     * guest, and its place is vacant. Possible where all that memory is lent, none of it outside,
     * both places differ, and they have fewer than 2^32 pages together. */
    VB_JOINS = 7,
    /* guest, pages, report: the first report to a later lender of a guest that has `pages`,
     * whichever was at its place. Until then its seat is these pages and zeros: all are lent. */
    VB_TAKES_OVER = 8,
    /* guest: it takes pages without a grant. All are lent to it, also those that it reports in its
     * balloon, until another guest is at its place. */
    VB_UNCOUNTS = 9,
    /* frames: the budget from now on. */
    VB_BUDGET = 10,
    /* guest: of all guests just this one comes before all others of its line from now on, whenever
     * it waits; none does where there is no such place. */
    VB_PREFERS = 11,
    /* guest: it lets others pass. Where it waits, in VB_LINE_RESETS or VB_LINE_ARRIVALS, it waits
     * in VB_LINE_ARRIVALS from now on with the next turn, as long as this wait lasts. Nothing is
     * lent by that. No effect where it doesn't wait, or in VB_LINE_DEFLATES. */
    VB_DEFERS = 12,
};

typedef struct {
    uint32_t kind;       /* VB_HEARS .. VB_DEFERS */
    size_t guest, added; /* places */
    uint32_t pages, ballooned;
    uint32_t frames;
    VbReport report;
} VbHostEvent;

VB_ASSERT(VB_HAS(Report, 48) && VB_AT(Report, target, 4) && VB_AT(Report, read_target, 8) &&
          VB_AT(Report, held, 12) && VB_AT(Report, line, 16) && VB_AT(Report, outside, 20) &&
          VB_AT(Report, target_number, 24) && VB_AT(Report, deflates, 32) &&
          VB_AT(Report, removed, 40));
VB_ASSERT(VB_HAS(Seat, 88) && VB_AT(Seat, ballooned, 4) && VB_AT(Seat, least_target, 8) &&
          VB_AT(Seat, target, 12) && VB_AT(Seat, wanted, 16) && VB_AT(Seat, held, 20) &&
          VB_AT(Seat, line, 24) && VB_AT(Seat, outside, 28) && VB_AT(Seat, target_number, 32) &&
          VB_AT(Seat, deflates, 40) && VB_AT(Seat, granted, 48) && VB_AT(Seat, removed, 56) &&
          VB_AT(Seat, turn, 64) && VB_AT(Seat, uncounted, 72) && VB_AT(Seat, preferred, 76) &&
          VB_AT(Seat, deferred, 80));
VB_ASSERT(VB_HAS(Host, 8) && VB_AT(Host, overdraft, 4));
VB_ASSERT(VB_HAS(HostEvent, 88) && VB_AT(HostEvent, guest, 8) && VB_AT(HostEvent, added, 16) &&
          VB_AT(HostEvent, pages, 24) && VB_AT(HostEvent, ballooned, 28) &&
          VB_AT(HostEvent, frames, 32) && VB_AT(HostEvent, report, 40));
VB_ASSERT(VB_HAS(Message, 60) && VB_AT(Message, wanted, 4) && VB_AT(Message, ballooned, 8) &&
          VB_AT(Message, target, 12) && VB_AT(Message, read, 16) && VB_AT(Message, held, 20) &&
          VB_AT(Message, deflate, 24) && VB_AT(Message, waits, 28) && VB_AT(Message, wait, 32) &&
          VB_AT(Message, holds, 36) && VB_AT(Message, outside, 40) && VB_AT(Message, files, 44) &&
          VB_AT(Message, start, 48) && VB_AT(Message, most, 52) && VB_AT(Message, limited, 56));
VB_ASSERT(VB_HAS(Exchange, 48) && VB_AT(Exchange, asked, 4) && VB_AT(Exchange, asks, 8) &&
          VB_AT(Exchange, sent, 16) && VB_AT(Exchange, sent_by, 24) &&
          VB_AT(Exchange, obeyed, 32) && VB_AT(Exchange, received, 40));
VB_ASSERT(VB_HAS(Aim, 40) && VB_AT(Aim, strict, 4) && VB_AT(Aim, ready, 8) &&
          VB_AT(Aim, seconds, 12) && VB_AT(Aim, needed, 16) && VB_AT(Aim, frames, 20) &&
          VB_AT(Aim, held_kib, 24) && VB_AT(Aim, passed, 32));
VB_ASSERT(VB_HAS(Pace, 16) && VB_AT(Pace, now, 4) && VB_AT(Pace, rises, 8) &&
          VB_AT(Pace, gains, 12));
VB_ASSERT(VB_HAS(Stand, 48) && VB_AT(Stand, lent, 8) && VB_AT(Stand, since, 16) &&
          VB_AT(Stand, head, 24) && VB_AT(Stand, turn, 32) && VB_AT(Stand, head_since, 40));
VB_ASSERT(VB_HAS(Look, 24) && VB_AT(Look, missing, 8) && VB_AT(Look, patience, 16) &&
          VB_AT(Look, awaits, 20));
VB_ASSERT(VB_HAS(Relief, 16) && VB_AT(Relief, guest, 8));
VB_ASSERT(VB_HAS(Reading, 80) && VB_AT(Reading, taken, 48) && VB_AT(Reading, joins, 52) &&
          VB_AT(Reading, ungranted, 56) && VB_AT(Reading, brings, 60) &&
          VB_AT(Reading, wants, 64) && VB_AT(Reading, without, 68) && VB_AT(Reading, small, 72) &&
          VB_AT(Reading, resets, 76));

#endif
