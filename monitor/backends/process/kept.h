/* What of a guest's process outlives it, in a memfd: another process takes it over, on the same
 * client.
 *
 * A state is all that the process is between two steps. There are two, and one word says which one
 * counts: a process fills the other one, and then writes that word, so that a state is whole
 * wherever a process ends. What the kernel or the guest changes meanwhile is found elsewhere: which
 * chains were used by the used index in the guest's memory; what is in the balloon by its set,
 * which is here; how many bytes of the client were read by its socket's peek offset, which the
 * kernel lowers by each byte that is read; whether a message was answered by the outbox. Files are
 * kept by the keeper (keeper.h), and here are their numbers. */
#ifndef KEPT_H
#define KEPT_H
#include "../channel/message.h"
#include "../vhost/inbox.h"
#include "../vhost/outbox.h"

/* A program resumes with what another one has kept in the same layout. A count of bytes begins at
 * COUNT_BEGINS, and goes down. */
enum { KEPT_LAYOUT = 1, COUNT_BEGINS = 1 << 30 };

struct kept_region {
    struct region_place place;
    int file;
};

/* What a guest's process knows besides its backend. */
struct notes {
    int channel;           /* to the lender; -1: none just now */
    int later;             /* where a later lender comes */
    int end;               /* process_end */
    uint32_t undiscarded;  /* as the backend's */
    uint64_t serial, lost; /* reports; messages to the lender that found no room */
    uint32_t pages;        /* of its memory that has room */
    uint32_t wait;         /* how many times it has waited */
    uint32_t held_pages;   /* of the deflate that is held; 0: none is */
    uint32_t held_wait;    /* how many were held */
    uint64_t heard, taken; /* its counters when they were last looked at */
    uint32_t ballooned_then;
    bool taken_since, ready_then;
    bool reads;                /* its driver has read a target */
    uint32_t ballooned_before; /* what was in the balloon at the last look */
    uint32_t ballooned_told;   /* what was in the balloon as it was last told of its target */
    uint32_t unused[5];        /* 0.3.0 has something there */
    uint32_t read_target;      /* the last one that its driver has read */
};

struct kept_state {
    struct notes notes;
    struct told told;
    struct ring rings[QUEUES]; /* the base of one that runs: its used index */
    struct kept_region regions[MOST_REGIONS];
    uint32_t region_count, outside; /* 0.3.0 has a gap of zeros in place of the second */
    struct counters counters;
    VbStatistic figures[MOST_TAGS];
    uint32_t figure_count, target_pages, actual_pages, poison_value, seen, remarks;
    uint64_t set_words;
    int socket, channel;      /* the client's, and the one on which it is told things */
    enum outcome outcome;     /* of the message in the inbox */
    uint32_t awaited;         /* 0.3.0 has a gap of zeros here */
    uint64_t messages, bytes; /* that were served */
};

struct kept {
    uint32_t layout, bytes; /* KEPT_LAYOUT, and how large this is */
    uint32_t counts;        /* the number of the state that counts */
    uint32_t ended_by; /* the signal that has ended the process before; 0: none has, or it was told
                          to end */
    uint8_t renews;    /* unless 0, the program that is there now is to go on: no bool, as a process
                          may write anything here */
    uint8_t stays;     /* unless 0, it couldn't */
    uint32_t turns;    /* how many turns a process has served, and all before it */
    /* the number of the last deflate whose grant was obeyed, or is being obeyed */
    uint32_t granted;
    uint64_t counted_from; /* the bytes that were read as the count began */
    uint64_t unnoted;      /* bytes that were read, and aren't in the inbox yet */
    struct inbox inbox;
    struct outbox outbox;
    struct kept_state states[2];
    uint64_t set[MOST_SET / 64];
};

/* What is kept of a guest that migrates, with the state of the same number: of the report that was
 * the last one then. */
struct kept_move {
    uint64_t serial; /* another one: another program has kept that state, which knows nothing of
                        this */
    struct log_place log;
    struct transfer transfer;
    struct moved moved;
    uint32_t comes_with, reserved; /* as the backend's and the process's */
};

/* All that is in the memfd: what 0.3.0 has there, and after that what it doesn't know of. */
struct kept_file {
    struct kept kept;
    struct kept_move moves[2];
    struct moved_room room;
};

struct lent;

/* The file that has it. */
static inline struct kept_file *kept_file(const struct kept *kept)
{
    return (struct kept_file *)kept;
}

/* The state that counts. */
const struct kept_state *kept_state(const struct kept *kept);

/* What begins with no client's word: all is zero, and there is no file. */
void kept_clear(struct kept *kept);

/* What a process is now counts from now on: once in a turn, at its end, and before what the process
 * says to its lender, or can't do twice. Files that it has closed since the last time are closed
 * then, and a message that it has served leaves the inbox. */
void kept_save(struct lent *lent);

/* The client's service has ended: its messages' files are closed. */
void kept_leave(struct lent *lent);

/* Makes the inbox and the outbox what they were as the process before ended, whatever it was doing;
 * false where no message has as many bytes as were read. */
bool kept_regain(struct kept *kept);

/* Makes of a process that has just begun what the state says that counts; false where it can't,
 * which is said. Its rings are still to be started. */
bool kept_restore(struct lent *lent);

/* How many bytes of its client were noted, also of a message that isn't whole. */
uint64_t kept_bytes(const struct kept *kept);

/* How many bytes of the client were read that weren't noted; and restarts the count, where those
 * that were are noted. */
uint64_t kept_unnoted(const struct kept *kept);
void kept_count_anew(struct kept *kept);

enum { MOST_KEPT_FILES = MOST_REGIONS + 3 * QUEUES + 2 * MOST_FILES + 16 };

/* The files that another process needs; how many there are. */
unsigned kept_files(const struct kept *kept, int files[MOST_KEPT_FILES]);

#endif
