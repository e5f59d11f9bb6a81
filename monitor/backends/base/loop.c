#include "loop.h"

#include <limits.h>
#include <stdlib.h>
#include <time.h>

static struct timespec read_clock(clockid_t clock)
{
    struct timespec time;
    clock_gettime(clock, &time);
    return time;
}

static double seconds_of(clockid_t clock)
{
    struct timespec time = read_clock(clock);
    return (double)time.tv_sec + (double)time.tv_nsec / 1e9;
}

int64_t loop_now(void)
{
    struct timespec time = read_clock(CLOCK_MONOTONIC);
    return time.tv_sec * INT64_C(1000) + time.tv_nsec / 1000000;
}

double loop_seconds(void)
{
    return seconds_of(CLOCK_MONOTONIC);
}

double loop_processor_seconds(void)
{
    return seconds_of(CLOCK_PROCESS_CPUTIME_ID);
}

bool loop_add(struct loop *loop, struct loop_part part)
{
    if (loop->part_count == MOST_PARTS)
        return false;
    loop->parts[loop->part_count++] = part;
    if (loop->room == 0) {
        loop->files = loop->few, loop->served_by = loop->few_served_by;
        loop->room = FEW_POLLED;
    }
    return true;
}

bool loop_reserve(struct loop *loop, nfds_t files)
{
    loop->files = calloc(files, sizeof loop->files[0]);
    loop->served_by = calloc(files, sizeof loop->served_by[0]);
    loop->room = files;
    return loop->files && loop->served_by;
}

void loop_wait_for(struct loop *loop, int file, short events, loop_serve *serve, void *context)
{
    if (file < 0 || loop->count == loop->room)
        return;
    loop->files[loop->count] = (struct pollfd){file, events, 0};
    loop->served_by[loop->count++] = (struct loop_server){serve, context};
}

void loop_wait_until(struct loop *loop, int64_t moment)
{
    loop->until = moment < loop->until ? moment : loop->until;
}

/* Has each part say what it waits for, and waits. */
static void wait_for_all(struct loop *loop)
{
    loop->count = 0;
    loop->until = INT64_MAX;
    for (unsigned i = 0; i < loop->part_count; i++)
        loop->parts[i].waits(loop->parts[i].context, loop);
    int64_t left = loop->until - loop_now();
    loop->came = poll_some(loop->files, loop->count,
                           left > INT_MAX ? -1
                           : left > 0     ? (int)left
                                          : 0);
    loop->woke_at = loop_seconds();
}

/* Serves what has come. */
static int serve(struct loop *loop)
{
    int step = LOOP_GOES_ON;
    for (nfds_t i = 0; i < loop->count && step == LOOP_GOES_ON; i++)
        if (loop->files[i].revents)
            step = loop->served_by[i].serve(loop->served_by[i].context, loop->files[i].fd);
    return step;
}

int loop_turn(void *context)
{
    struct loop *loop = context;
    wait_for_all(loop);
    int step = serve(loop);
    for (unsigned i = 0; i < loop->part_count && step == LOOP_GOES_ON; i++)
        step = loop->parts[i].turn ? loop->parts[i].turn(loop->parts[i].context) : LOOP_GOES_ON;
    return step;
}

int loop_run(struct loop *loop, int (*guarded)(int (*act)(void *what), void *what))
{
    int step = LOOP_GOES_ON;
    while (step == LOOP_GOES_ON)
        step = guarded ? guarded(loop_turn, loop) : loop_turn(loop);
    return step;
}
