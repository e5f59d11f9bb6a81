#include "backend.h"
#include "codes.h"
#include "lives.h"
#include "ring_layout.h"

/* Chains that a process uses at most before what it is is kept again: some turns of a queue. */
enum { MOST_USED = 16 * MOST_CHAINS };

/* The statuses of a driver that starts (VIRTIO 1.1, 2.1). */
enum { ACKNOWLEDGE = 1, DRIVER = 3, FEATURES_OK = 11, DRIVER_OK = 15, FAILED_BIT = 128 };

/* The kind of the queue of this number, by the features that the client has told; VB_NO_KIND where
 * they have none. */
static uint32_t kind_of(const struct backend *backend, unsigned number)
{
    return vb_kind_of(features_of_device(backend->told.features), number);
}

/* The device's own queue of this kind, or NULL. */
static const VbQueue *queue_of(const struct backend *backend, uint32_t kind)
{
    const VbDevice *device = &backend->balloon.state.device;
    const VbQueue *queues[] = {&device->inflate, &device->deflate, &device->statistics,
                               &device->report, &device->hint};
    return kind < VB_NO_KIND ? queues[kind] : NULL;
}

const struct ring *ring_of_kind(const struct backend *backend, uint32_t kind)
{
    for (unsigned number = 0; number < QUEUES; number++)
        if (kind_of(backend, number) == kind)
            return &backend->rings[number];
    return NULL;
}

bool queue_is_postponed(const struct backend *backend, uint32_t kind)
{
    return kind == VB_DEFLATE && backend->options->holds && backend->told.features & LOG_ALL;
}

bool ring_describes(const struct backend *backend, uint32_t kind, uint64_t guest)
{
    const VbQueue *queue = queue_of(backend, kind);
    return queue && guest - queue->table < (uint64_t)DESCRIPTOR_SIZE * queue->size;
}

/* Writes the status, while no queue is there but one of this kind; false where the device refuses
 * it, or what the guest has posted before. */
static bool write_status(struct backend *backend, uint8_t status, uint32_t kind)
{
    struct balloon_result result;
    if (status == 0 && !life_may_empty(backend, backend->ballooned == 0))
        return false;
    uint32_t answer = balloon_write_status(&backend->balloon, status, &result);
    if (answer != 0)
        return refuse("status %u is refused: %s", status, status_words(answer));
    if (status == 0 && backend->balloon.ballooned)
        backend->ballooned = backend->undiscarded = 0;
    return backend_finish(backend, kind, &result);
}

void configuration_write(VbDevice *device, uint32_t offset, uint32_t number)
{
    uint8_t bytes[4] = {(uint8_t)number, (uint8_t)(number >> 8), (uint8_t)(number >> 16),
                        (uint8_t)(number >> 24)};
    vb_write_config(device, offset, bytes, sizeof bytes);
}

/* No ring runs any longer: a round of hints is stopped, as by a driver's reset, which this may be.
 * The rings may go on where they were, so `actual` and the set of pages in the balloon stay until
 * the first ring restarts. So does poison_val, which QEMU writes before it tells the features,
 * until it is written again, as each driver does that knows it. */
static bool rest(struct backend *backend)
{
    struct balloon *balloon = &backend->balloon;
    uint32_t poison = balloon->state.device.poison;
    uint64_t *set = balloon->ballooned;
    if (backend_is_ready(backend)) {
        backend->told.goes_on = true;
        backend->told.actual = balloon->state.device.actual;
    }
    balloon->ballooned = NULL;
    bool written = write_status(backend, 0, VB_NO_KIND);
    balloon->ballooned = set;
    configuration_write(&balloon->state.device, POISON_AT, poison);
    return written;
}

bool rings_reset(struct backend *backend)
{
    backend->moved.awaits = false;
    backend->told.goes_on = backend->told.negotiated = false;
    backend->told.status = 0;
    return write_status(backend, 0, VB_NO_KIND);
}

uint32_t rings_negotiate(struct backend *backend, uint64_t features)
{
    struct balloon_result result;
    if (!rest(backend) || !write_status(backend, ACKNOWLEDGE, VB_NO_KIND) ||
        !write_status(backend, DRIVER, VB_NO_KIND))
        return UINT32_MAX;
    backend->told.features = features;
    uint32_t answer = balloon_negotiate(&backend->balloon, features_of_device(features));
    if (answer == 0)
        answer = balloon_write_status(&backend->balloon, FEATURES_OK, &result);
    backend->told.negotiated = answer == 0;
    return answer;
}

/* Whether the client has told all that a ring wants to run. DRIVER_OK isn't waited for: QEMU 7.2
 * tells it of a network's device alone, and starts no ring before. */
static bool wants_to_run(const struct backend *backend, unsigned number)
{
    const struct told *told = &backend->told;
    const struct ring *ring = &backend->rings[number];
    bool enabled = ring->enabled || !(told->features & HAS_PROTOCOL_FEATURES);
    bool failed = told->status & FAILED_BIT;
    return told->negotiated && !failed && enabled && ring->placed && ring->started &&
           ring->size > 0 && kind_of(backend, number) < VB_NO_KIND;
}

bool ring_runs(const struct backend *backend, unsigned number)
{
    return backend->rings[number].runs;
}

bool rings_run(const struct backend *backend)
{
    for (unsigned number = 0; number < QUEUES; number++)
        if (backend->rings[number].runs)
            return true;
    return false;
}

/* Where a queue starts, in guest addresses: it resumes after what was used, so what was taken and
 * not used is served again, as requests are served in order. */
static bool find_start(struct backend *backend, unsigned number, VbQueueStart *at)
{
    const struct ring *ring = &backend->rings[number];
    if (ring->size > VB_MAX_QUEUE_SIZE)
        return refuse("queue %u has %u entries", number, ring->size);
    at->size = (uint16_t)ring->size;
    if (!memory_of_user(&backend->memory, ring->table, &at->table) ||
        !memory_of_user(&backend->memory, ring->avail, &at->avail) ||
        !memory_of_user(&backend->memory, ring->used, &at->used) ||
        !memory_word(&backend->memory, at->used + RING_INDEX_AT, &at->next))
        return refuse("queue %u isn't in the guest's memory", number);
    if (ring->based && (ring->base > UINT16_MAX || (uint16_t)(ring->base - at->next) > ring->size))
        return refuse("queue %u resumes at %u, and its used index is %u", number, ring->base,
                      at->next);
    return true;
}

/* Starts a ring, and serves what is available. */
static bool start(struct backend *backend, unsigned number)
{
    struct ring *ring = &backend->rings[number];
    VbQueueStart at = {0};
    if (backend->balloon.state.device.status < FEATURES_OK &&
        rings_negotiate(backend, backend->told.features) != 0)
        return refuse("the features aren't taken again");
    if (!find_start(backend, number, &at))
        return false;
    uint32_t kind = kind_of(backend, number),
             code = balloon_start_queue(&backend->balloon, kind, at);
    if (code != VB_OK)
        return refuse("queue %u isn't started: %s", number, answer_words(code));
    ring->runs = true;
    if (kind == VB_INFLATE && !life_begins(backend, at.next))
        return false;
    if (backend->keep)
        backend->keep(backend);
    if (at.next > 0 &&
        !backend->tell(backend, (int)number)) /* who was served last may not have been told of it */
        return refuse("the client can't be told of a used buffer");
    /* The status looks at each queue once, which may leave more than a notice serves. */
    return (backend_is_ready(backend) || write_status(backend, DRIVER_OK, kind)) &&
           backend_serve(backend, number);
}

/* Stops a ring, and notes at which index; 0 where the device was reset before. */
static void stop(struct backend *backend, unsigned number)
{
    struct ring *ring = &backend->rings[number];
    uint16_t next;
    if (!ring->runs)
        return;
    balloon_stop_queue(&backend->balloon, kind_of(backend, number), &next);
    ring->base = next;
    backend->pending &= ~(1u << number);
    ring->runs = false;
}

bool rings_settle(struct backend *backend)
{
    for (unsigned number = 0; number < QUEUES; number++) {
        bool wants = wants_to_run(backend, number);
        if (!wants)
            stop(backend, number);
        else if (!backend->rings[number].runs && !start(backend, number))
            return false;
    }
    return rings_run(backend) || !backend_is_ready(backend) || rest(backend);
}

/* Whether a ring lies where its queue was placed. */
static bool holds(struct backend *backend, unsigned number)
{
    const struct ring *ring = &backend->rings[number];
    const VbQueue *queue = queue_of(backend, kind_of(backend, number));
    uint64_t table, avail, used, size = queue->size;
    return memory_of_user(&backend->memory, ring->table, &table) && table == queue->table &&
           memory_of_user(&backend->memory, ring->avail, &avail) && avail == queue->avail &&
           memory_of_user(&backend->memory, ring->used, &used) && used == queue->used &&
           memory_holds(&backend->memory, table, DESCRIPTOR_SIZE * size) &&
           memory_holds(&backend->memory, avail, RING_META_SIZE + AVAIL_ENTRY_SIZE * size) &&
           memory_holds(&backend->memory, used, RING_META_SIZE + USED_ELEMENT_SIZE * size);
}

bool rings_hold(struct backend *backend)
{
    for (unsigned number = 0; number < QUEUES; number++)
        if (backend->rings[number].runs && !holds(backend, number))
            return refuse("queue %u isn't in the guest's memory any longer", number);
    return true;
}

void rings_keep(const struct backend *backend, struct ring kept[QUEUES])
{
    for (unsigned number = 0; number < QUEUES; number++) {
        kept[number] = backend->rings[number];
        if (kept[number].runs)
            kept[number].base = queue_of(backend, kind_of(backend, number))->next_used;
    }
}

/* Finds where a ring resumes that ran in another process: what that one has used since it was kept
 * is seen in the guest's memory. */
static bool find_used(struct backend *backend, unsigned number)
{
    struct ring *ring = &backend->rings[number];
    uint64_t used;
    uint16_t now;
    if (!memory_of_user(&backend->memory, ring->used, &used) ||
        !memory_word(&backend->memory, used + RING_INDEX_AT, &now))
        return refuse("queue %u isn't in the guest's memory", number);
    if ((uint16_t)(now - ring->base) > MOST_USED)
        return refuse("queue %u has the used index %u, and had %u", number, now, ring->base);
    ring->base = now;
    ring->runs = false;
    return true;
}

bool rings_regain(struct backend *backend, const struct told *told, const struct ring kept[QUEUES],
                  bool was_ready)
{
    bool ready = was_ready && told->negotiated && !told->goes_on;
    backend->told = *told;
    memcpy(backend->rings, kept, sizeof backend->rings);
    for (unsigned number = 0; number < QUEUES; number++) {
        ready |= backend->rings[number].runs;
        if (backend->rings[number].runs && !find_used(backend, number))
            return false;
    }
    if (told->negotiated && rings_negotiate(backend, told->features) != 0)
        return refuse("the features aren't taken again");
    backend->told = *told;
    /* Also where no ring runs again, as the process before was to stop the last one. */
    return !ready || write_status(backend, DRIVER_OK, VB_NO_KIND);
}

void ring_end(struct backend *backend, unsigned number)
{
    struct ring *ring = &backend->rings[number];
    stop(backend, number);
    event_close(&ring->kick);
    ring->started = ring->polled = false;
}

void rings_halt(struct backend *backend)
{
    for (unsigned number = 0; number < QUEUES; number++) {
        struct ring *ring = &backend->rings[number];
        ring_end(backend, number);
        *ring = (struct ring){
            .base = ring->base, .kick = NO_EVENT, .call = ring->call, .fault = ring->fault};
    }
}

void rings_forget(struct backend *backend)
{
    rings_halt(backend);
    for (unsigned number = 0; number < QUEUES; number++)
        backend->rings[number].base = 0;
}

void rings_clear(struct backend *backend)
{
    memset(&backend->told, 0, sizeof backend->told);
    for (unsigned number = 0; number < QUEUES; number++)
        backend->rings[number] =
            (struct ring){.kick = NO_EVENT, .call = NO_EVENT, .fault = NO_EVENT};
}

void rings_close(struct backend *backend)
{
    for (unsigned number = 0; number < QUEUES; number++) {
        event_close(&backend->rings[number].kick);
        event_close(&backend->rings[number].call);
        event_close(&backend->rings[number].fault);
    }
}
