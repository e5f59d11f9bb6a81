/* Messages of one queue. A client may tell of each number below QUEUES, whatever features it has
 * negotiated; what the features leave out never runs. */
#include "handlers.h"

enum { NUMBER_OF_EVENT = 0xff, NO_FILE = 0x100 };

/* A bit of a ring's flags: what is written to it is logged. */
enum { LOGGED = 1 };

/* The ring that a message names, or NULL, which is said. */
static struct ring *ring_of(struct backend *backend, uint64_t number)
{
    if (number < QUEUES)
        return &backend->rings[number];
    refuse("there is no queue %llu", (unsigned long long)number);
    return NULL;
}

/* As ring_of, where the ring mustn't run. */
static struct ring *stopped_ring_of(struct backend *backend, uint32_t number)
{
    struct ring *ring = ring_of(backend, number);
    if (!ring || !ring->runs)
        return ring;
    refuse("queue %u runs", number);
    return NULL;
}

enum outcome set_vring_num(struct backend *backend, struct message *message)
{
    struct ring *ring = stopped_ring_of(backend, message_u32(message, 0));
    if (!ring)
        return STOP;
    ring->size = message_u32(message, 4);
    return DONE;
}

enum outcome set_vring_base(struct backend *backend, struct message *message)
{
    struct ring *ring = stopped_ring_of(backend, message_u32(message, 0));
    if (!ring)
        return STOP;
    ring->base = message_u32(message, 4);
    ring->based = true;
    return DONE;
}

/* Whether the client has writes to a used ring logged at the addresses of the guest that the ring
 * has; or not at all. */
static bool is_logged_where_it_is(const struct backend *backend, const struct message *message)
{
    uint64_t used = message_u64(message, 16), log = message_u64(message, 32), guest;
    if (!(message_u32(message, 4) & LOGGED))
        return true;
    return (memory_of_user(&backend->memory, used, &guest) && guest == log) ||
           refuse("queue %u is to be logged at 0x%llx, where its used ring isn't",
                  message_u32(message, 0), (unsigned long long)log);
}

enum outcome set_vring_addr(struct backend *backend, struct message *message)
{
    uint32_t number = message_u32(message, 0);
    uint64_t table = message_u64(message, 8), used = message_u64(message, 16),
             avail = message_u64(message, 24);
    struct ring *ring = ring_of(backend, number);
    if (!ring)
        return STOP;
    if (ring->runs && (table != ring->table || used != ring->used || avail != ring->avail))
        return refuse("queue %u runs, and can't move", number), STOP;
    if (!is_logged_where_it_is(backend, message))
        return STOP;
    ring->table = table;
    ring->used = used;
    ring->avail = avail;
    ring->placed = true;
    ring->logged = message_u32(message, 4) & LOGGED;
    return DONE;
}

/* Stops the ring, and answers where it resumes. */
enum outcome get_vring_base(struct backend *backend, struct message *message)
{
    uint32_t words[2] = {message_u32(message, 0), 0};
    struct ring *ring = ring_of(backend, words[0]);
    if (!ring)
        return STOP;
    ring_end(backend, words[0]);
    words[1] = ring->base;
    return answer_bytes(backend, message, words, sizeof words);
}

/* Takes the file that comes beside the number of a queue, or lets go of the one before where there
 * is none. */
static bool take_event(const struct message *message, struct event *event, struct files *files,
                       bool (*take)(struct event *event, int file), const char *what)
{
    uint64_t word = message_u64(message, 0);
    unsigned number = word & NUMBER_OF_EVENT;
    if ((word & ~(uint64_t)(NUMBER_OF_EVENT | NO_FILE)) ||
        files->count != ((word & NO_FILE) ? 0 : 1))
        return refuse("%u files for an event of queue %u, by the word 0x%llx", files->count, number,
                      (unsigned long long)word);
    if (word & NO_FILE)
        return event_close(event), true;
    return take(event, files->numbers[--files->count]) ||
           refuse("a file of queue %u is no %s", number, what);
}

static bool take_kick(const struct message *message, struct event *event, struct files *files)
{
    return take_event(message, event, files, event_take_kick, "eventfd that a read empties");
}

static bool take_call(const struct message *message, struct event *event, struct files *files)
{
    return take_event(message, event, files, event_take_call,
                      "eventfd, pipe or socket of a stream");
}

/* A kick without a file asks for a ring that is looked at without a kick. */
enum outcome set_vring_kick(struct backend *backend, struct message *message)
{
    struct ring *ring = ring_of(backend, message_u64(message, 0) & NUMBER_OF_EVENT);
    if (!ring || !take_kick(message, &ring->kick, &message->files))
        return STOP;
    ring->polled = ring->kick.file < 0;
    ring->started = true;
    /* A kick of the file before may be lost. */
    return !ring->runs || backend_serve(backend, message_u64(message, 0) & NUMBER_OF_EVENT) ? DONE
                                                                                            : STOP;
}

/* Who is called again may have missed a call. */
enum outcome set_vring_call(struct backend *backend, struct message *message)
{
    struct ring *ring = ring_of(backend, message_u64(message, 0) & NUMBER_OF_EVENT);
    if (!ring || !take_call(message, &ring->call, &message->files))
        return STOP;
    if (ring->runs && ring->call.file >= 0)
        event_signal(&ring->call);
    return DONE;
}

enum outcome set_vring_err(struct backend *backend, struct message *message)
{
    struct ring *ring = ring_of(backend, message_u64(message, 0) & NUMBER_OF_EVENT);
    return ring && take_call(message, &ring->fault, &message->files) ? DONE : STOP;
}

/* Where kicks are messages, no file says that a ring is to start. */
enum outcome set_vring_enable(struct backend *backend, struct message *message)
{
    struct ring *ring = ring_of(backend, message_u32(message, 0));
    if (!ring)
        return STOP;
    ring->enabled = message_u32(message, 4) != 0;
    if (ring->enabled && (backend->told.protocol & IN_BAND_FEATURE))
        ring->started = true;
    return DONE;
}

/* A kick is answered before it is served: the guest's kernel waits for the answer under a lock. */
enum outcome vring_kick(struct backend *backend, struct message *message)
{
    uint32_t number = message_u32(message, 0);
    struct ring *ring = ring_of(backend, number);
    if (!ring)
        return STOP;
    backend->counters.kicks++;
    bool answers = (backend->told.protocol & REPLY_ACK_FEATURE) && message_wants_answer(message);
    if (answers && answer_u64(backend, message, 0) != ANSWERED)
        return STOP;
    bool ran = ring_runs(backend, number);
    ring->started = true; /* one that starts now is served as it does */
    return !ran || backend_serve(backend, number) ? ANSWERED : STOP;
}
