/* Messages of the whole device: features, its status, its configuration. */
#include "handlers.h"

#include "../balloon/codes.h"

#include <inttypes.h>

enum { IS_FEATURES_OK = 8 };

static VbDevice *device_of(struct backend *backend)
{
    return &backend->balloon.state.device;
}

enum outcome get_features(struct backend *backend, struct message *message)
{
    return answer_u64(backend, message,
                      device_of(backend)->settings.offered | HAS_PROTOCOL_FEATURES | LOG_ALL);
}

/* What the queues write is logged, or no longer: what was postponed meanwhile is served then. */
static bool set_logging(struct backend *backend, uint64_t features)
{
    bool ends = backend->told.features & ~features & LOG_ALL;
    backend->told.features = features;
    for (unsigned number = 0; ends && number < QUEUES; number++)
        if (ring_runs(backend, number) && !backend_serve(backend, number))
            return false;
    return true;
}

/* The features represent all that comes before them. A client may send them twice before its queues
 * run: the last ones count. While queues run it may have what they write logged, or no longer. */
enum outcome set_features(struct backend *backend, struct message *message)
{
    uint64_t features = message_u64(message, 0);
    if (rings_run(backend) && (features ^ backend->told.features) & ~LOG_ALL)
        return refuse("the features 0x%" PRIx64 " while queues run", features), STOP;
    if (rings_run(backend))
        return set_logging(backend, features) ? DONE : STOP;
    uint32_t answer = rings_negotiate(backend, features);
    if (answer == 0)
        return DONE;
    remark(backend, "the features 0x%" PRIx64 " are refused: %s", features_of_device(features),
           status_words(answer));
    return FAILED;
}

/* Forgets what was told of the device in an earlier session. */
static bool end_session(struct backend *backend)
{
    rings_forget(backend);
    rings_close(backend);
    backend_forget_migration(backend);
    return rings_reset(backend) && slots_forget(backend);
}

/* A session begins: where a device is plugged again over one connection, its memory and its queues
 * are told again. QEMU negotiates protocol features and hands over its channel before, so these
 * stay. */
enum outcome set_owner(struct backend *backend, struct message *message)
{
    (void)message;
    bool again = backend->told.owned;
    backend->told.owned = true;
    return !again || end_session(backend) ? DONE : STOP;
}

/* What this backend offers. */
static uint64_t protocol_features(const struct backend *backend)
{
    uint64_t features = MQ_FEATURE | REPLY_ACK_FEATURE | BACKEND_REQ_FEATURE | CONFIG_FEATURE |
                        RESET_DEVICE_FEATURE | IN_BAND_FEATURE | MEM_SLOTS_FEATURE |
                        STATUS_FEATURE | LOG_SHMFD_FEATURE | DEVICE_STATE_FEATURE;
    return backend->options->events ? features & ~IN_BAND_FEATURE : features;
}

enum outcome get_protocol_features(struct backend *backend, struct message *message)
{
    return answer_u64(backend, message, protocol_features(backend));
}

enum outcome set_protocol_features(struct backend *backend, struct message *message)
{
    uint64_t features = message_u64(message, 0);
    if (features & ~protocol_features(backend))
        return refuse("the protocol features 0x%" PRIx64 " aren't offered", features), STOP;
    backend->told.protocol = features;
    return DONE;
}

enum outcome get_queue_num(struct backend *backend, struct message *message)
{
    return answer_u64(backend, message, QUEUES);
}

enum outcome set_channel(struct backend *backend, struct message *message)
{
    int file = message->files.numbers[--message->files.count];
    if (backend->channel >= 0)
        file_close(backend->channel);
    backend->channel = is_stream(file) ? file : -1;
    if (backend->channel >= 0)
        return DONE;
    file_close(file);
    return refuse("the channel is no socket of a stream"), STOP;
}

enum outcome get_status(struct backend *backend, struct message *message)
{
    return answer_u64(backend, message, backend->told.status);
}

/* Stops all rings where the driver resets the device. They may be told again as they were, and go
 * on: a client stops its device like this, too. */
static enum outcome halt(struct backend *backend)
{
    rings_halt(backend);
    backend->told.status = 0;
    return DONE;
}

/* A client may leave out the bits of the statuses before FEATURES_OK. */
enum outcome set_status(struct backend *backend, struct message *message)
{
    uint64_t status = message_u64(message, 0);
    if (status == 0)
        return halt(backend);
    bool clears = backend->told.status & ~status;
    bool early = (status & BALLOON_DRIVER_OK) && !(status & IS_FEATURES_OK);
    bool untaken = (status & IS_FEATURES_OK) && !backend->told.negotiated;
    if (status > UINT8_MAX || clears || early || untaken)
        return FAILED;
    backend->told.status = (uint8_t)status;
    return DONE;
}

enum outcome reset_device(struct backend *backend, struct message *message)
{
    (void)message;
    rings_forget(backend);
    return rings_reset(backend) ? DONE : STOP;
}

/* Deprecated: stops all rings. */
enum outcome reset_owner(struct backend *backend, struct message *message)
{
    (void)message;
    return halt(backend);
}
