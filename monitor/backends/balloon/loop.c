/* What every such process does in its loop: its client, the kicks of its queues, its control pipe,
 * and a look each second. */
#include "backend.h"
#include "guard.h"
#include "state.h"

#include "../base/loop.h"

#include <unistd.h>

enum { LOOK_EVERY = 1000, IDLE_EVERY = 50, POLL_EVERY = 10 };

struct running {
    struct loop loop;
    struct backend *backend;
    int (*serve)(struct backend *backend);
    int64_t look; /* when the next look is */
    int end;      /* process_end */
    int pipe;     /* the control pipe; -1: it has ended */
    struct control_line line;
};

/* A signal ends the process once the client and the pipe were served. */
static int take_signal(void *context, int file)
{
    struct running *it = context;
    (void)file;
    it->backend->ended = true;
    return LOOP_GOES_ON;
}

static int serve_client(void *context, int file)
{
    struct running *it = context;
    (void)file;
    return it->serve(it->backend);
}

static int obey(void *backend, const char *line)
{
    return control_obey(backend, line);
}

/* Obeys the lines of the control pipe, as control_read. */
static int obey_pipe(void *context, int file)
{
    struct running *it = context;
    int obeyed = control_read(&it->line, obey, it->backend);
    (void)file;
    if (obeyed != 0 || !it->line.ended || !it->backend->options->lives_on)
        return obeyed;
    it->pipe = -1;
    return LOOP_GOES_ON;
}

/* The file on which a client, or what it sends, comes; -1: none is looked at. */
static int client_of(const struct backend *backend)
{
    if (backend->socket >= 0)
        return backend->socket;
    return backend->rests ? -1 : backend->listener;
}

/* How long to wait for something to do. */
static void wait_for_time(const struct running *it, struct loop *loop)
{
    const struct backend *backend = it->backend;
    loop_wait_until(loop, it->look);
    if (backend->pending)
        loop_wait_until(loop, loop_now());
    if (rings_polled(backend))
        loop_wait_until(loop, loop_now() + POLL_EVERY);
    if (backend->idle)
        loop_wait_until(loop, loop_now() + IDLE_EVERY);
}

static void waits(void *context, struct loop *loop)
{
    struct running *it = context;
    loop_wait_for(loop, it->end, POLLIN, take_signal, it);
    loop_wait_for(loop, client_of(it->backend), POLLIN, serve_client, it);
    loop_wait_for(loop, it->pipe, POLLIN, obey_pipe, it);
    rings_wait(it->backend, loop);
    transfer_wait(it->backend, loop);
    wait_for_time(it, loop);
}

/* Once in a while: reminds the driver, and tries again what couldn't be done. */
static bool look(struct running *it)
{
    backend_look(it->backend);
    it->backend->rests = false;
    it->look = loop_now() + LOOK_EVERY;
    return state_save(it->backend, true);
}

static int turn(void *context)
{
    struct running *it = context;
    struct backend *backend = it->backend;
    if (backend->ended)
        return LOOP_ENDS;
    if (it->loop.came == 0 && backend->idle)
        backend->idle(backend);
    bool good = rings_look(backend) && backend_serve_pending(backend) &&
                state_save(backend, false) && (loop_now() < it->look || look(it));
    return good ? LOOP_GOES_ON : LOOP_FAULT;
}

int backend_run(struct backend *backend, int (*serve)(struct backend *backend))
{
    static struct running running;
    running = (struct running){.backend = backend,
                               .serve = serve,
                               .look = loop_now() + LOOK_EVERY,
                               .end = process_end(),
                               .pipe = STDIN_FILENO};
    bool good =
        running.end >= 0 && loop_add(&running.loop, (struct loop_part){&running, waits, turn});
    good = good && loop_run(&running.loop, guard) == LOOP_ENDS;
    return good && state_save(backend, false) ? 0 : 1; /* the last round may have no turn */
}
