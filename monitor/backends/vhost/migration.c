/* Messages of a client that migrates its guest: a log of what the device writes, and the device as
 * bytes that go through a pipe. */
#include "handlers.h"
#include "ring_layout.h"

#include <inttypes.h>

/* Directions and phases of a device's state, and the word that answers it: no file comes back. */
enum { SAVE = 0, LOAD = 1, WHILE_STOPPED = 0, NO_FILE_COMES = 0x100 };

/* The hook for what the device has written. */
static void log_written(void *context, const struct balloon_region *region, uint64_t at,
                        uint64_t length)
{
    struct backend *backend = context;
    const struct ring *ring = ring_of_kind(backend, backend->balloon.notice.kind);
    if (ring && ring->logged && backend->told.features & LOG_ALL)
        dirty_log_mark(&backend->log, region->guest + at, length);
}

enum outcome set_log_base(struct backend *backend, struct message *message)
{
    uint64_t bytes = message_u64(message, 0), offset = message_u64(message, 8);
    int file = message->files.numbers[--message->files.count];
    const char *fault = dirty_log_take(&backend->log, (struct log_place){bytes, offset, file});
    if (fault)
        return refuse("the log of %" PRIu64 " bytes from %" PRIu64 " on %s", bytes, offset, fault),
               STOP;
    backend->balloon.on_written = log_written;
    return answer_u64(backend, message, 0);
}

/* What the process before has written last may not be marked yet. */
static void mark_used(struct backend *backend, const struct ring *ring)
{
    uint64_t used;
    if (ring->logged && memory_of_user(&backend->memory, ring->used, &used))
        dirty_log_mark(&backend->log, used, RING_META_SIZE + USED_ELEMENT_SIZE * ring->size);
}

bool migration_regain(struct backend *backend, struct log_place place,
                      const struct ring kept[QUEUES])
{
    if (place.bytes == 0)
        return true;
    if (dirty_log_take(&backend->log, place))
        return refuse("the log can't be mapped by another process");
    backend->balloon.on_written = log_written;
    for (unsigned number = 0; number < QUEUES; number++)
        if (kept[number].runs && backend->told.features & LOG_ALL)
            mark_used(backend, &kept[number]);
    return true;
}

/* Begins to save the device, or to load one; false where it can't, which is said. */
static bool begin(struct backend *backend, uint32_t direction, uint32_t phase, int file)
{
    if (direction == SAVE && phase == WHILE_STOPPED && !rings_run(backend))
        return transfer_save(backend, file);
    if (direction == LOAD && phase == WHILE_STOPPED && !rings_run(backend))
        return transfer_load(backend, file);
    remark(backend, "the device's state in direction %" PRIu32 ", in phase %" PRIu32 "%s",
           direction, phase, rings_run(backend) ? ", while queues run" : "");
    file_close(file);
    return false;
}

enum outcome set_device_state_fd(struct backend *backend, struct message *message)
{
    int file = message->files.numbers[--message->files.count];
    bool begun = begin(backend, message_u32(message, 0), message_u32(message, 4), file);
    return answer_u64(backend, message, NO_FILE_COMES | !begun);
}

/* What has come through the pipe is kept before the reply: it comes once. */
enum outcome check_device_state(struct backend *backend, struct message *message)
{
    transfer_read_on(backend);
    if (backend->keep)
        backend->keep(backend);
    return answer_u64(backend, message, !transfer_ends(backend));
}
