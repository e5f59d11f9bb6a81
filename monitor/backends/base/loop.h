/* The event loop of all daemons. In each turn the parts of a loop say what they wait for: files,
 * each with what serves it, and moments. What has come is served in the order in which it was
 * waited for; then each part has its turn. */
#ifndef LOOP_H
#define LOOP_H
#include "process.h"

#include <stdint.h>

/* What serving and a turn come to: the loop continues; it ends; or it ends since something can't go
 * on. */
enum { LOOP_FAULT = -1, LOOP_ENDS, LOOP_GOES_ON };

enum { MOST_PARTS = 4, FEW_POLLED = 64 };

struct loop;

/* Serves a file, of which something has come: as above. */
typedef int loop_serve(void *context, int file);

struct loop_part {
    void *context;
    void (*waits)(void *context, struct loop *loop); /* says what this turn waits for */
    int (*turn)(
        void *context); /* what each turn does after what came was served, as above; or NULL */
};

/* What serves a file. */
struct loop_server {
    loop_serve *serve;
    void *context;
};

struct loop {
    struct loop_part parts[MOST_PARTS];
    unsigned part_count;
    /* Files for which there is room: FEW_POLLED, where loop_reserve has made no other one. */
    struct pollfd *files, few[FEW_POLLED];
    struct loop_server *served_by, few_served_by[FEW_POLLED];
    nfds_t room;
    /* Of this turn. */
    nfds_t count;
    int64_t until;
    int came;       /* files of which something has come; negative: it couldn't wait */
    double woke_at; /* when it had waited, in seconds */
};

/* The monotonic clock, in milliseconds; and in seconds; the seconds for which the process has had a
 * processor. */
int64_t loop_now(void);
double loop_seconds(void);
double loop_processor_seconds(void);

/* Takes one more part, before the loop runs; false where there is no room. */
bool loop_add(struct loop *loop, struct loop_part part);

/* Makes room for this many files, once, before the loop runs; false where there is no memory. */
bool loop_reserve(struct loop *loop, nfds_t files);

/* While a part says what it waits for: a file, which may be -1, of those for which there is room;
 * and a moment, by loop_now(). */
void loop_wait_for(struct loop *loop, int file, short events, loop_serve *serve, void *context);
void loop_wait_until(struct loop *loop, int64_t moment);

/* A turn of a loop: waits, serves what has come, and has each part take its turn, as long as each
 * answers LOOP_GOES_ON. Returns the last answer. */
int loop_turn(void *loop);

/* Has turn after turn, as long as they answer LOOP_GOES_ON, each by this guard where there is one;
 * returns the last answer. */
int loop_run(struct loop *loop, int (*guarded)(int (*act)(void *what), void *what));

#endif
