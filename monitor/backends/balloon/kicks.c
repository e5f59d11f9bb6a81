/* What wakes a ring: its kick, or the time. */
#include "backend.h"

#include "../base/loop.h"

/* Takes a kick, and serves its queue. */
static bool take_kick(struct backend *backend, unsigned number)
{
    struct ring *ring = &backend->rings[number];
    int got = event_read(&ring->kick);
    if (got < 0)
        event_close(&ring->kick);
    if (got <= 0 || !ring_runs(backend, number))
        return true;
    backend->counters.kicks++;
    return backend_serve(backend, number);
}

/* Serves the queue whose kick has come, unless it has another kick by now, or the process is to
 * end. */
static int kicked(void *context, int file)
{
    struct backend *backend = context;
    for (unsigned number = 0; number < QUEUES && !backend->ended; number++)
        if (backend->rings[number].kick.file == file && !take_kick(backend, number))
            return LOOP_FAULT;
    return LOOP_GOES_ON;
}

void rings_wait(struct backend *backend, struct loop *loop)
{
    for (unsigned number = 0; number < QUEUES; number++)
        if (ring_runs(backend, number))
            loop_wait_for(loop, backend->rings[number].kick.file, POLLIN, kicked, backend);
}

bool rings_polled(const struct backend *backend)
{
    for (unsigned number = 0; number < QUEUES; number++)
        if (backend->rings[number].polled && ring_runs(backend, number))
            return true;
    return false;
}

bool rings_look(struct backend *backend)
{
    for (unsigned number = 0; number < QUEUES; number++)
        if (backend->rings[number].polled && ring_runs(backend, number) &&
            !backend_serve(backend, number))
            return false;
    return true;
}
