/* The lender of a host: it lends its guests more memory than the host has, and asks each for pages
 * so that the host's budget suffices. Each guest has a process of its own, which alone touches what
 * a client sends. */
#ifndef HOST_H
#define HOST_H
#include "journal.h"
#include "machine.h"
#include "vb_host.h"
#include "vb_policy.h"
#include "view.h"

#include "../base/loop.h"
#include "../base/process.h"
#include "../base/say.h"
#include "../channel/message.h"

#include <stdio.h>

enum {
    /* Of a guest, also of one that is leaving, and of memory that is added to each; and one of
     * pages that return to a guest. */
    PLACES_OF_GUEST = 4,
    MOST_PLACES = PLACES_OF_GUEST * MOST_GUESTS + 1,
    /* questions without statistics, and a guest counts as one that doesn't answer */
    SILENT_AFTER = 3,
    PAGES_PER_MIB = 256,
    PAGE_KIB = BALLOON_PAGE / 1024,
};

/* Who writes a guest's limit, and what is known of that. Frames. */
struct limit_writer {
    int channel;            /* -1: nobody does yet */
    bool waits;             /* for the outcome of the last request */
    uint64_t number, asked; /* of the last request, and what it is to be; 0: nothing */
    uint64_t written;       /* what was written last; 0: it isn't known */
    uint64_t allowed; /* the kernel allows no fewer than these, whatever is being written; 0: it
                         isn't known */
    uint64_t failures;
    int64_t again_at; /* before this nothing is written, as something couldn't be */
};

/* What is looked at of a guest to tell whether it rests, in pages. */
struct stillness {
    uint32_t pages, ballooned, available;
    uint64_t held, reclaimed;
};

/* The place of added memory of a guest to which none is added. */
#define NO_PLACE SIZE_MAX

/* A guest's place on the host, which it may leave and come back to. */
struct seat {
    struct host *host;
    struct speaker speaker; /* for what is said of its clients */
    struct speaker teller;  /* for what its process tells */
    char name[MOST_NAME], path[MOST_PATH], later_path[MOST_PATH];
    int listener; /* where its client comes */
    struct guest_terms terms;
    struct limit_writer writer;
    /* Its process. */
    bool here;        /* there is one */
    pid_t process;    /* the number of its keeper, by the kernel's word */
    int process_file; /* readable once that has ended; -1: its channel ends then */
    pid_t serving; /* the number of the process that has sent the last report: another one may go on
                      where it ends */
    int channel;   /* -1: none */
    bool gone;     /* its client has gone; the process hasn't ended yet */
    int64_t leaves_until; /* of one that was removed: then it is killed */
    bool refused; /* its client isn't served any longer, as it broke a rule or found no room */
    enum refusal refused_for; /* why its last client wasn't admitted, until one is, and by how many
                                 pages it missed that */
    uint64_t refused_by, refusals; /* refusals: clients that weren't admitted */
    bool holds;  /* its process was started to hold deflates and resets, until they are granted */
    bool adopts; /* the first report of a process that an earlier lender has started is still to
                      come */
    int64_t adopts_until; /* and isn't waited for any longer from then on */
    bool reserves;        /* its pages are as the folder kept them */
    bool unreached;       /* it isn't reached yet: as many lenders wait for it as may */
    int64_t comes_at;     /* before this no client is taken */
    int64_t paid_until;   /* its clients, and the memory that they brought, are paid for until then,
                             each with its milliseconds */
    int64_t asked_at;     /* when the first order to look that isn't answered was given; 0: all are
                             answered */
    uint64_t number;      /* of the last order to look */
    unsigned read;        /* messages of it that were read since the last refill */
    uint64_t clients, lost;
    /* the last one, whose words are the version of its process; zeros without one */
    struct lending_message report;
    /* What was made of it. */
    uint32_t kept_pages; /* as the folder has them */
    uint32_t free, available, ballooned_then;
    bool known, tells_free, tells_available;
    unsigned silent;        /* questions for statistics since its last ones */
    struct stillness still; /* as it was when it last changed, and when that was */
    int64_t moved_at;
    unsigned passed_over; /* periods in which it rested and wasn't asked */
    int64_t heard_at;
    uint64_t heard, taken; /* its counters when they were last looked at */
    int64_t paused_until;  /* it has taken pages itself: until then it is asked for no more than it
                              has given */
    VbPressure pressure;   /* what its counters said of waits for memory */
    uint32_t inflates_to;  /* the greatest target above its balloon since its last statistics */
    uint32_t target;       /* what was decided; what is wanted so far is in its VbSeat */
    uint32_t by_hand;      /* what an operator wants in its balloon until all is decided again */
    int64_t waits_since, migrates_since;
    struct ended_wait ended; /* the last of its waits that ended, also those of clients before */
    bool wait_named;         /* it was said that its wait is long */
    bool
        asks_terms; /* they aren't in the folder: the first report of a process of 0.3.0 has them */
    bool cooperates; /* it hasn't taken pages that nobody granted */
    /* What was passed on to the lender's step, and sent by what that made of it. */
    size_t place, added;   /* of its VbSeat; of that of memory which is added to it: NO_PLACE */
    VbExchange exchange;   /* what was noted of its process, and sent to it */
    uint64_t granted_asks; /* the number of the last grant that was noted */
    uint32_t lent;    /* frames that were lent to it as what a step made of it was looked at last */
    uint64_t granted; /* frames that were lent to it since it came, as it asked for them or was told
                         to take them */
};

/* The pages that its memory's files hold, by its last report. */
static inline uint32_t pages_held(const struct seat *seat)
{
    return (uint32_t)(seat->report.held_kib / PAGE_KIB);
}

struct host_counters {
    uint64_t looks, above, peak;              /* peak: KiB */
    uint64_t decisions, changed;              /* changed: targets */
    uint64_t shorts, admitted, refused, gone; /* shorts: decisions that found the guests short */
    uint64_t shortages, command_failures; /* that lasted; of the command that was run for them */
    uint64_t grants;                      /* of room, deflates and resets that waited */
};

/* What guests that wait take in the end beyond what is lent to them, as their statistics say, and
 * the least budget with which all of them have it, in pages. */
struct demand {
    uint64_t wanted, least_budget;
};

/* That the guests can't give what is missing. */
struct shortage {
    int64_t since;         /* 0: they can */
    bool lasts, is_due;    /* the host's patience has passed; the command is still to be run */
    char guest[MOST_NAME]; /* who had the lowest priority then; empty: nobody had memory */
    uint64_t missing;      /* then, in pages */
    struct demand demand;  /* then */
    int command;           /* tells how the operator's command has ended; -1: none runs */
};

/* The answers of standard output that nobody has read yet. */
struct answers {
    FILE *out;
    char *bytes;
    size_t length, sent;
};

/* Lines of standard input that weren't obeyed yet. */
struct input {
    char bytes[4096];
    size_t length;
    bool cut, ended;
};

/* A line whose answer waits for new reports. */
struct question {
    char line[256];        /* empty: none */
    uint64_t number;       /* reports with a later number are new */
    const struct seat *of; /* the guest that is asked; the number of that order, and whether it
                              could be asked */
    uint64_t ask;
    bool asked;
    int64_t until;
};

struct host {
    const char *folder, *program; /* program: of guests' processes */
    const char *itself;           /* the lender's own program */
    int channels;                 /* the folder where a later lender finds guests' processes */
    uint64_t features;
    VbHost lends;   /* what it may lend: nothing before a guest of an earlier lender has reported */
    VbStand stand;  /* at the last look */
    bool unsettled; /* something has happened that no step has followed */
    struct shortage shortage;
    uint32_t patience;    /* seconds for which a shortage lasts until the operator is told, and for
                             which the first that waits to come keeps others waiting */
    const char *on_short; /* the command that is run then; NULL or empty: none */
    unsigned most;        /* guests that there may be, and as many that are leaving */
    VbSeat *places;
    size_t place_count; /* how many are, or were, somebody's */
    bool strict, strict_pages, events, no_sandbox, end_with_lender;
    struct seat **seats;
    unsigned count;
    /* seats that were taken away, whose processes haven't ended yet */
    struct seat **leaving;
    unsigned leaving_count;
    uint32_t budget; /* pages: what the operator says, the most that there is for guests */
    struct machine machine;
    uint32_t frames,
        floor;           /* pages: the budget, no more than the operator's, and what each guest is
                               to keep available */
    uint32_t reserve;    /* percent of its pages: the page cache that each guest keeps as long as
                               others have any */
    uint32_t step;       /* a target grows by 1/step of the guest in a second; 0: at once */
    int64_t period;      /* milliseconds */
    uint32_t cost;       /* of a client to its seat, in milliseconds; 0: clients cost nothing */
    int64_t rests_until; /* clients aren't taken before this, as there was no file left for one */
    int64_t paid_until;  /* the processes that were started are paid for until then, each with its
                            milliseconds */
    struct seat *comes;  /* whose client is taken in this turn; NULL: none */
    struct seat *reads_next; /* whose messages this turn had no time for, and all after it; NULL: it
                                had for all */
    double processor_at; /* what it had of the processors as the turn before ended, in seconds */
    int64_t refills_at;  /* when messages are read again of processes that have sent too many */
    int64_t decides_at, stepped_at; /* what guests do isn't decided on before the first; when
                                       targets were last let grow */
    bool looked, steps;    /* this turn is the first one after a look; as it began, a guest wasn't
                              asked yet for what was decided */
    int end;               /* has something to read once a signal tells the host to end */
    bool upgrades, leaves; /* it is to become the program that is there now; it ends alone, and
                              guests' processes live on */
    bool anew;             /* the guests, the budget or the floor have changed */
    enum reason reason;    /* which of them */
    bool news;             /* what the guests can spare may have changed */
    uint64_t missing;      /* as the last decision had it, and up to which tier guests give */
    uint32_t tier;
    uint64_t looks_asked; /* the number of the last order to look */
    struct host_counters counters;
    struct journal journal;
    uint64_t printed; /* how many decisions `log` has printed or lost */
    struct input input;
    struct answers answers;
    struct question question;
    struct loop loop;
    struct loop_part
        service;        /* what is between the guests' turn and that of lines; zeros: nothing */
    int64_t looks_at;   /* when the next look is, or the reminder between two */
    bool reminds, ends; /* it is the reminder; a signal has told the host to end */
};

/* The guests, the budget or the floor have changed: targets are decided again at the next look. */
void host_changed(struct host *host, enum reason reason);

/* Serves until a line or a signal says to quit or to leave. */
void host_run(struct host *host);

/* ---- tables.c */

/* A table that is to be allocated, all zeros: where the pointer to it is, and its elements. */
struct table {
    void *at;
    size_t count, size;
};

/* Allocates these tables; false where there is no memory. */
bool tables_make(const struct table tables[], size_t count);

/* How many places of seats this many guests need. */
size_t places_of(unsigned guests);

/* Allocates the tables of a host of this many guests; false, which is said, where there is no
 * memory. */
bool host_make_tables(struct host *host, unsigned guests);

/* ---- folder.c */

/* Names the folder from / on, so that its sockets have paths for others, where they aren't too long
 * for sockets then; false where it isn't there, which is said. */
bool folder_whole(struct host *host);

/* Whether the folder is this host's alone, and the folder of channels in it its user's alone; says
 * why not. It stays so until the process ends. */
bool folder_lock(struct host *host);

/* The host has ended with its guests: no lender comes later. */
void folder_leave(const struct host *host);

/* Opens the file that the writer of a guest's limit locks; -1 with errno. */
int folder_limit_lock(const struct seat *seat);

/* Moves the channel of a process of 0.3.0 to the folder of channels; false where there is none. */
bool folder_moves_channel(const struct seat *seat);

/* Keeps terms of a guest, and how many pages it was granted, in the folder for a lender that comes
 * later, which doesn't believe its process: NULL, or why it can't; the pages, where they have
 * changed: false where it can't, which is said. And no longer. */
const char *folder_keep(struct seat *seat, const struct guest_terms *terms);
bool folder_keep_pages(struct seat *seat);
void folder_forget(const struct host *host, const char *name);

/* Makes a seat for each guest that an earlier lender has left in the folder; false, which is said,
 * where one at work has no place, so that nobody would count its pages. */
bool folder_take_over(struct host *host);

/* Removes the socket of an earlier host, and nothing else. */
void remove_socket(const char *path);

/* Whether a guest may have this name: letters, digits, dashes and underscores. */
bool is_name(const char *name);

/* ---- seats.c */

/* The seat of this name, or NULL. */
struct seat *seat_of(const struct host *host, const char *name);

/* Whether the socket of this name has a path that is short enough in a folder. */
bool seat_has_path(const char *folder, const char *name);

/* Why no seat of this name can be made; NULL: one can. */
const char *seat_fault(const struct host *host, const char *name);

/* Makes a seat, whose socket waits for its client, or takes over its process; NULL, or why it
 * can't. */
const char *seat_add(struct host *host, const char *name, const struct guest_terms *terms);

/* Ends the service of its client, if there is one, and takes the seat away; NULL, or why it
  * can't. */
const char *seat_remove(struct host *host, struct seat *seat);

/* The lender ends: with all guests' service, unless they live on as it leaves or upgrades. The
 * processes of those that were removed end in any case: no later lender knows of them. */
void host_end(struct host *host);

/* Resets a seat to its unconnected state. */
void seat_clear(struct seat *seat);

/* Whether somebody is there, and whether its driver is ready; whether its statistics come, and its
 * process answers. */
bool seat_is_taken(const struct seat *seat);
bool seat_is_ready(const struct seat *seat);
bool seat_answers(const struct seat *seat);
bool seat_reports(const struct seat *seat);

/* Frees what a seat is made of. */
void seat_free(struct seat *seat);

/* ---- start.c */

/* Starts a process for the client that waits at its socket. */
void seat_start(struct seat *seat);

/* Its client brings more pages: the seat pays for them. And when it has paid for all but what it
 * may owe: no client is taken before. */
void seat_pays(struct seat *seat, uint32_t pages);
int64_t seat_has_paid(const struct seat *seat);

/* Takes over the process of an earlier lender, if there is one. And these pages count as lent until
 * that has reported, or has ended. */
void seat_take_over(struct seat *seat);
bool process_is_left(const struct host *host, const char *name); /* by an earlier lender */
void seat_reach(struct seat *seat); /* once more, where it couldn't be reached */
void seat_reserve(struct seat *seat, uint32_t pages);

/* Whether a guest of an earlier lender is still to tell what it has: until then nothing is lent,
 * admitted or decided. */
bool host_awaits(const struct host *host);

/* Where it was removed: its process is killed that hasn't ended in time. */
void seat_end_late(struct seat *seat);

/* Its process isn't believed any longer: it is killed, and all its pages count as lent until it has
 * ended. */
void seat_disown(struct seat *seat);

/* Its process has ended. */
void seat_ended(struct seat *seat);

/* ---- orders.c */

/* Orders its process to look, and to ask the guest for statistics; or to remind it of its
  * target. */
void seat_look(struct seat *seat, bool asks);
void seat_remind(struct seat *seat);

/* Decides how many pages the host wants in its balloon, and wants as many as a step allows, which
 * places_settle() follows. */
void seat_set_target(struct seat *seat, uint32_t pages);

/* Lets what is wanted grow by what `milliseconds` allow, which places_settle() follows; whether
 * that is less than what was decided, or a target isn't received. */
void seat_step(struct seat *seat, int64_t milliseconds);
bool seat_is_behind(const struct seat *seat);

/* Tells its process to end; says so again where it hasn't ended. */
void seat_leave(struct seat *seat);

/* Has another process, of the program that is there now, go on with its client. */
void seat_renew(struct seat *seat);

/* Sends what is due to its process: an answer for room, and the grant of what it has asked for,
 * once its limit allows that. */
void seat_repeat(struct seat *seat);

/* Sends its last target, and an order to look after it: what answers that has received the target.
 * Sends the order again, and before it the target where its process hasn't received that. */
void seat_tell(struct seat *seat);
void seat_look_again(struct seat *seat, bool asks);

/* ---- reports.c */

/* Reads what its process has sent, at most `most` messages, and notes what came of it; returns how
 * many it read. */
unsigned seat_read(struct seat *seat, unsigned most);

/* ---- waits.c */

/* For what a process waits, by its last report. */
enum guest_wait seat_waits_for(const struct seat *seat);

/* Follows what a process waits for, by its next report; and ends its wait, if it has one. */
void seat_waits(struct seat *seat, const struct lending_message *report);
void seat_ends_wait(struct seat *seat);

/* ---- migrations.c */

/* What a report says of a migration, of one word; and notes what changes by it. */
const char *migration_word(const struct lending_message *report);
void seat_migrates(struct seat *seat, const struct lending_message *report);

/* ---- rest.c */

/* Whether a guest rests: nothing has changed of it for a while, and nobody wants anything. */
bool seat_rests(const struct seat *seat);

/* Whether it is to be asked in this period: one that rests isn't in each. */
bool seat_is_due(struct seat *seat);

/* Follows what its last report says; whether it has rested until now. */
bool seat_moves(struct seat *seat);

/* ---- pressure.c */

/* Takes its last report, and the counters of its last statistics; and whether its own work waits
 * for memory. */
void pressure_follows(struct seat *seat);
void pressure_hears(struct seat *seat);
bool seat_is_pressed(const struct seat *seat);

/* ---- policy.c */

/* Makes room for what is known of this many guests, and of those that leave; false where there is
 * no memory. */
bool policy_make(unsigned guests);

/* What a guest can spare now. */
uint32_t policy_spare(const struct seat *seat);

/* A guest has told its statistics, or has taken pages back by itself. */
void policy_hears(struct seat *seat);
void policy_sees_taken(struct seat *seat);

/* By how many frames a guest of `pages` pages, which gives none at first, finds too few; 0 where
 * there are enough. */
uint64_t policy_lacks(struct host *host, const struct seat *newcomer, uint32_t pages);

/* What guests want, as far as is known now. */
struct demand policy_demand(const struct host *host);

/* Sets targets where the old ones no longer serve. */
void policy_decide(struct host *host);

/* What all guests hold, in KiB. */
uint64_t host_held(const struct host *host);

/* ---- shortage.c */

/* Follows a shortage: has one that lasts told, and the operator's command run for it. */
void shortage_look(struct host *host);

/* Takes how the command has ended, for the host's loop. */
int shortage_take_end(void *host, int file);

/* ---- limits.c */

/* The word with which the program of a lender is a writer of a limit. */
extern const char writer_word[];

/* Its limit is to be another guest's: its terms have none until they are set. */
void limit_leave(struct seat *seat);

/* Whether the kernel allows it what is lent to it; and whether it has a limit that is known to be
 * written. */
bool limit_allows(const struct seat *seat);
bool limit_holds(const struct seat *seat);

/* Has each limit written that isn't as its guest's loan wants it. */
void limits_follow(struct host *host);

/* Takes what its writer has answered. */
void limit_take(struct seat *seat);

/* What was known of its limit isn't known any longer; nor has it a writer. */
void limit_forget(struct seat *seat);
void limit_end(struct seat *seat);

/* ---- lines.c, input.c */

/* Obeys one line of the control pipe; false where it says to quit or to leave. */
bool host_line(struct host *host, const char *line);

/* Answers the line that waits for new reports, if they have come. */
void question_answer(struct host *host);

/* Reads what has come of standard input, and obeys whole lines, as long as all answers were read;
 * false where one says to quit. */
void input_read(struct input *input);
bool input_obey(struct host *host);

/* Begins the answers; writes what there is room for; whether all were read. */
bool answers_begin(struct answers *answers);
void answers_send(struct answers *answers);
bool answers_were_read(const struct answers *answers);

#endif
