/* A process for one guest's balloon: what its parts share, whatever its client speaks. */
#ifndef BACKEND_H
#define BACKEND_H
#include "counters.h"
#include "dirty_log.h"
#include "guest_memory.h"
#include "rings.h"
#include "transfer.h"

#include "../base/numbers.h"
#include "../base/process.h"
#include "../base/say.h"
#include "../base/tags.h"

/* The most chains of a notice: then the other queues and the client have their turn. */
enum { MOST_TAGS = 16, MOST_REMARKS = 100, MOST_REMARK = 256, MOST_CHAINS = 64, MOST_PAGES = 1024 };

/* Files that a client may have opened here: those of its memory and of a message, the events of its
 * queues, its channel, itself, its log, the pipe of its device's state; and those of a process
 * without one. */
enum { FILES_OF_CLIENT = MOST_REGIONS + 8 + 3 * QUEUES + 4, FILES_OF_PROCESS = 8 };

/* What the handler of a message comes to: FAILED is for the client alone, and nothing has changed,
 * but that features that are refused leave none. UNHANDLED: it wasn't called yet. */
enum outcome { UNHANDLED, STOP, ANSWERED, DONE, FAILED };

struct message;

struct options {
    const char *client; /* the client's socket: a name, or a number */
    const char *state;  /* the file of the saved state, or NULL */
    uint64_t features;
    bool strict, keep;
    bool events;  /* in-band notifications aren't offered */
    bool is_lent; /* a lender has started the process, for the guest of the name `client` */
    bool holds;   /* deflates and resets wait for a grant */
    bool hints, discards_hints; /* free page hints are offered, and discarded */
    bool ends_with_lender;      /* the kernel ends it as its lender ends */
    bool open;                  /* it isn't shut in a sandbox */
    bool lives_on;              /* the end of the control pipe isn't the end of the process */
    bool goes_on;               /* it resumes with what another program has kept of this guest */
    const char *user;           /* the number of its client's user; NULL: any */
    uint64_t layout; /* somebody asks whether this program resumes with what is kept in this layout;
                        0: nobody */
};

struct backend {
    struct balloon balloon;
    struct guest_memory memory;
    struct told told;
    struct ring rings[QUEUES];
    struct counters counters;
    struct hint_counters hints;
    VbStatistic figures[MOST_TAGS];
    uint32_t figure_count;
    uint32_t pending;     /* bit 1 << number: more is available on this queue */
    uint32_t seen;        /* what `actual` was when it was last looked at */
    uint32_t ballooned;   /* the pages in the balloon's set */
    uint32_t undiscarded; /* as many of these as couldn't be discarded, at most: they are held */
    int socket, channel;  /* the client's, and the one on which it is told things; -1: none */
    int listener;         /* where the client comes while `socket` is -1 */
    const struct options *options;
    struct dirty_log log;     /* of what the device writes, while a client migrates its guest */
    struct transfer transfer; /* of the device itself */
    struct moved moved;       /* what has come by it */
    struct moved_room *room;  /* for both */
    uint32_t comes_with; /* as many pages given up its guest comes from another host, at least */
    /* Tells the driver of a used buffer on a queue, or of a change of the configuration (queue
      * -1). */
    bool (*tell)(struct backend *backend, int queue);
    /* For a client that has to be poked now and then; or NULL. */
    void (*idle)(struct backend *backend);
    /* Whether the host has room for the memory that was handed over, else says why not; or NULL: it
     * always has. */
    bool (*admit)(struct backend *backend);
    /* A guest of `pages` pages comes from another host, with `given` of them given up: whether this
     * one has room for the others; or NULL: it always has. */
    bool (*comes)(struct backend *backend, uint32_t pages, uint32_t given);
    /* A deflate of `pages` pages is held: backend_give grants it. */
    void (*held)(struct backend *backend, uint32_t pages);
    /* The balloon is to be empty for a new driver: whether that may be, else the client can't be
     * served; or NULL: it may. */
    bool (*empties)(struct backend *backend);
    /* Answers a message, in place of a send; false where the client doesn't take the answer at
     * once. Or NULL. */
    bool (*answer)(struct backend *backend, const struct message *message, const void *body,
                   size_t size);
    /* The effective target, as the driver may not have read the current one yet; or NULL: the
     * current one. */
    uint32_t (*obeyed)(const struct backend *backend);
    /* What the backend is now is to outlive its process; or NULL. */
    void (*keep)(struct backend *backend);
    enum outcome outcome; /* of the message that is served */
    bool gone;            /* the client doesn't take answers any longer */
    bool ended;           /* a signal, or its operator, has told the process to end */
    bool rests;       /* no file was left for a client that came: it isn't looked for until the next
                  * look */
    unsigned remarks; /* what was said of it, at most MOST_REMARKS lines */
};

/* Says something of a client that is still served; but not for ever. */
void remark(struct backend *backend, const char *format, ...) __attribute__((format(printf, 2, 3)));

/* The options of such a process, as rows of a table (options.h). */
#define BACKEND_OPTIONS(its)                                                                       \
    {"features", .read = read_features, .at = &(its)->features},                                   \
        {"lines", .read = read_lines, .at = &most_lines},                                          \
        {"state", .read = read_word, .at = &(its)->state}, {"strict", .flag = &(its)->strict},     \
        {"keep", .flag = &(its)->keep}, {"events", .flag = &(its)->events},                        \
        {"lent", .flag = &(its)->is_lent}, {"holds", .flag = &(its)->holds},                       \
        {"hints", .flag = &(its)->hints}, {"discard-hints", .flag = &(its)->discards_hints},       \
        {"end-with-lender", .flag = &(its)->ends_with_lender},                                     \
        {"no-sandbox", .flag = &(its)->open}, {"goes-on", .flag = &(its)->goes_on},                \
        {"user", .read = read_word, .at = &(its)->user},                                           \
    {                                                                                              \
        "layout", .read = read_layout, .at = &(its)->layout                                        \
    }

/* Makes the device for a client that hasn't said anything; false where it can't, which is said. The
 * options stay. */
bool backend_start(struct backend *backend, const struct options *options);

/* Closes each file that the client has handed over, and unmaps its memory. */
void backend_leave(struct backend *backend);

/* Serves until the client has gone, breaks a rule, or the control pipe says to quit; returns the
 * program's status. `serve` serves one message of the client, if one is there: 1; 0 where it has
 * gone; -1 where it can't be served. */
int backend_run(struct backend *backend, int (*serve)(struct backend *backend));

/* No client migrates its guest any longer. */
void backend_forget_migration(struct backend *backend);

/* The pages in the balloon that the host doesn't hold any longer. */
uint32_t backend_given(const struct backend *backend);

/* Whether its driver is ready. */
bool backend_is_ready(const struct backend *backend);

/* Grants the deflate that is held, and serves what is after it. */
bool backend_give(struct backend *backend);

/* Asks the guest for new statistics: `asked` where it could be; as backend_finish. */
bool backend_ask(struct backend *backend, bool *asked);

/* Serves the queue of this number. */
bool backend_serve(struct backend *backend, unsigned number);

/* Serves what is left on a queue that was served for long. */
bool backend_serve_pending(struct backend *backend);

/* Once a second: tells the driver of its target again, where it stays off it. */
void backend_look(struct backend *backend);

/* Tells the driver of a change of its configuration. */
void backend_tell_change(struct backend *backend);

/* Does what a result of a queue of this kind says: interrupts, and counts; false where the guest's
 * bytes broke a rule. Where there is a set, no other queue may have been looked at. */
bool backend_finish(struct backend *backend, uint32_t kind, const struct balloon_result *result);

/* Keeps what the guest told of itself: of more than MOST_TAGS figures, the first ones. */
void statistics_keep(struct backend *backend, const VbStatistic *figures, uint32_t count);
uint32_t statistics_room(uint32_t count);

/* What has come of a control pipe's next line. */
struct control_line {
    char bytes[256];
    size_t length;
    bool cut;   /* it is longer than that, and its first bytes are gone */
    bool ended; /* the pipe has ended */
};

/* Reads what is in the control pipe, and has its whole lines obeyed, as long as `obey` answers 1;
 * returns what that answered last, and 0 at the pipe's end. In place of a line that is too long, or
 * that has a byte 0, an empty one is obeyed, which is answered as a line that says nothing
  * known. */
int control_read(struct control_line *line, int (*obey)(void *context, const char *line),
                 void *context);

/* Obeys one line of the control pipe, with one line on standard output: 1; 0 where it says to quit;
 * -1 where the client can't be served any longer. */
int control_obey(struct backend *backend, const char *line);

#endif
