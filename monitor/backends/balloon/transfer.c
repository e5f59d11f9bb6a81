#include "transfer.h"

#include "backend.h"

#include "../base/loop.h"

void transfer_forget(struct backend *backend)
{
    struct transfer *transfer = &backend->transfer;
    if (transfer_has_file(transfer))
        file_close(transfer->file);
    transfer->state = TRANSFER_NONE;
}

/* Begins with a file; false where it is none that can be served without waiting. */
static bool begin(struct backend *backend, int file, enum transfer_state state)
{
    struct transfer *transfer = &backend->transfer;
    transfer_forget(backend);
    if (!pipe_take(file)) {
        file_close(file);
        remark(backend, "the file for the device's state is no pipe and no socket of a stream");
        return false;
    }
    transfer->state = state;
    transfer->file = file;
    transfer->length = transfer->done = 0;
    return true;
}

/* The transfer is over, and fails: that is said, and at its end known. */
static void fail(struct backend *backend, const char *why)
{
    remark(backend, "%s", why);
    transfer_forget(backend);
}

/* Writes as much as there is room for. The end of the pipe says that all is there. */
static void write_on(struct backend *backend)
{
    struct transfer *transfer = &backend->transfer;
    __atomic_store_n(&backend->room->amid, true, __ATOMIC_RELEASE);
    ssize_t put = pipe_write(transfer->file, backend->room->bytes + transfer->done,
                             transfer->length - transfer->done);
    if (put < 0) {
        fail(backend, "nobody takes the device's state");
        return;
    }
    transfer->done += (size_t)put;
    if (transfer->done < transfer->length)
        return;
    file_close(transfer->file);
    transfer->state = TRANSFER_SAVED;
}

/* Reads what is there, up to one byte more than a device has; whether more may come at once. */
static bool read_on(struct backend *backend)
{
    struct transfer *transfer = &backend->transfer;
    struct moved_room *room = backend->room;
    bool ended = false;
    __atomic_store_n(&room->amid, true, __ATOMIC_RELEASE);
    ssize_t got = pipe_read(transfer->file, room->bytes + transfer->length,
                            sizeof room->bytes - transfer->length, &ended);
    if (got > 0)
        transfer->length += (size_t)got;
    if (got < 0)
        fail(backend, "the pipe with the device's state can't be read");
    else if (transfer->length > MOST_MOVED)
        fail(backend, "the device's state is longer than any");
    else if (ended) {
        file_close(transfer->file);
        transfer->state = TRANSFER_READ;
    }
    return transfer->state == TRANSFER_LOADS && got > 0;
}

bool transfer_save(struct backend *backend, int file)
{
    struct transfer *transfer = &backend->transfer;
    if (!begin(backend, file, TRANSFER_SAVES))
        return false;
    transfer->length = moved_save(backend, backend->room->bytes);
    if (transfer->length == 0)
        transfer_forget(backend);
    return transfer->length > 0;
}

bool transfer_load(struct backend *backend, int file)
{
    return begin(backend, file, TRANSFER_LOADS);
}

void transfer_read_on(struct backend *backend)
{
    while (backend->transfer.state == TRANSFER_LOADS && read_on(backend))
        continue;
}

/* The client has read all, or written all, before it asks: what is missing doesn't come. */
bool transfer_ends(struct backend *backend)
{
    struct transfer *transfer = &backend->transfer;
    enum transfer_state state = transfer->state;
    if (state == TRANSFER_NONE)
        remark(backend, "there is no state of a device");
    else if (state == TRANSFER_SAVES)
        fail(backend, "the device's state isn't taken whole");
    else if (state == TRANSFER_LOADS)
        fail(backend, "the pipe with the device's state hasn't ended");
    else if (state == TRANSFER_READ && rings_run(backend))
        remark(backend, "the device's state isn't loaded while queues run");
    transfer->state = TRANSFER_NONE;
    return state == TRANSFER_SAVED || (state == TRANSFER_READ && !rings_run(backend) &&
                                       moved_load(backend, backend->room->bytes, transfer->length));
}

void transfer_regain(struct backend *backend, const struct transfer *transfer)
{
    backend->transfer = *transfer;
    if (transfer_has_file(transfer) && backend->room->amid)
        fail(backend, "its process ended during the transfer of the device's state, which has to "
                      "be restarted");
}

static int serve(void *context, int file)
{
    struct backend *backend = context;
    (void)file;
    if (backend->transfer.state == TRANSFER_SAVES)
        write_on(backend);
    else if (backend->transfer.state == TRANSFER_LOADS)
        read_on(backend);
    return LOOP_GOES_ON;
}

void transfer_wait(struct backend *backend, struct loop *loop)
{
    const struct transfer *transfer = &backend->transfer;
    if (transfer->state == TRANSFER_SAVES)
        loop_wait_for(loop, transfer->file, POLLOUT, serve, backend);
    if (transfer->state == TRANSFER_LOADS)
        loop_wait_for(loop, transfer->file, POLLIN, serve, backend);
}
