/* The same balloon on PCI, for QEMU's x-pci-proxy-dev (tried with QEMU 7.2 of Debian 12).
 *
 *     pci_proxy_balloon FD [--features HEX] [--strict] [--keep] [--hints] [--discard-hints]
 *     [--lines N]
 *
 * FD is one end of a pair of stream sockets, whose other end QEMU has. All else is as in
 * vhost_user_balloon.c. The driver's own writes of the status, of its features and of its queues'
 * places arrive here.
 *
 * QEMU hands interrupts of such a device over to KVM alone. Without KVM the guest has to look by
 * itself: Linux does, with `irqpoll` on its command line.
 */
#include "base/options.h"
#include "base/stream.h"
#include "pci/virtio_pci.h"

#include <limits.h>
#include <stdio.h>
#include <sys/socket.h>

/* Messages of QEMU (its docs/devel/multi-process.rst). */
enum {
    SYNC_MEMORY,
    RETURN,
    CONFIGURATION_WRITE,
    CONFIGURATION_READ,
    BAR_WRITE,
    BAR_READ,
    SET_INTERRUPT,
    DEVICE_RESET
};
enum { MOST_BODY = 256, TABLE_ENTRIES = 8, QUEUE_BIT = 1, CONFIGURATION_BIT = 2 };

struct head {
    int32_t command, unused;
    uint64_t size;
};

struct body {
    union {
        uint8_t bytes[MOST_BODY];
        struct {
            uint32_t at, value, length;
        } configuration;
        struct {
            uint64_t at, value;
            uint32_t length;
            uint8_t memory;
        } bar;
        struct {
            uint64_t guest[TABLE_ENTRIES], size[TABLE_ENTRIES], offset[TABLE_ENTRIES];
        } memory;
    };
};

static struct virtio_pci pci;

/* The guest's interrupt. */
static struct event line = {-1, false};

/* A message as it comes. */
static struct {
    struct head head;
    struct body body;
    struct files files;
    size_t got, got_body;
} inbox;

/* Interrupts: the status that the guest reads, and then the event. */
static bool tell(struct backend *backend, int queue)
{
    (void)backend;
    pci.isr |= queue < 0 ? CONFIGURATION_BIT : QUEUE_BIT;
    pci.generation += queue < 0;
    return line.file < 0 || event_signal(&line);
}

/* A guest that polls may pass by an interrupt: it gets another one. */
static void idle(struct backend *backend)
{
    if (backend->balloon.state.device.status & BALLOON_DRIVER_OK)
        pci.isr |= QUEUE_BIT;
}

static bool answer(struct backend *backend, uint64_t value)
{
    struct {
        struct head head;
        uint64_t value;
    } message = {{RETURN, 0, sizeof value}, value};
    ssize_t sent = send(backend->socket, &message, sizeof message, MSG_DONTWAIT | MSG_NOSIGNAL);
    backend->gone = sent != sizeof message;
    return !backend->gone;
}

/* The guest's memory has changed; it is one table, and a file for each entry. */
static bool sync_memory(struct backend *backend, const struct body *body, struct files *files)
{
    struct region_place places[TABLE_ENTRIES] = {0};
    unsigned count = files->count;
    for (unsigned i = 0; i < count; i++)
        places[i] = (struct region_place){body->memory.guest[i], body->memory.size[i],
                                          body->memory.guest[i], body->memory.offset[i]};
    files->count = 0;
    if (!memory_map(&backend->memory, places, files->numbers, count))
        return refuse("the guest's memory can't be mapped");
    return balloon_set_regions(&backend->balloon, backend->memory.regions, count) == VB_OK ||
           refuse("the guest's memory doesn't end");
}

static bool set_interrupt(struct files *files)
{
    if (files->count == 0)
        return refuse("an interrupt without a file");
    bool taken = event_take_call(&line, files->numbers[0]);
    memmove(files->numbers, files->numbers + 1, --files->count * sizeof files->numbers[0]);
    return taken || refuse("the file of an interrupt is no eventfd, pipe or socket of a stream");
}

/* A kick is answered before it is served, any other write when it is done. */
static bool write_bar(struct backend *backend, const struct body *body)
{
    uint64_t at = body->bar.at % BAR_SIZE;
    bool kick = pci_is_kick(at);
    if (kick && !answer(backend, 0))
        return false;
    return pci_write(&pci, at, body->bar.value, body->bar.length) && (kick || answer(backend, 0));
}

static bool handle(struct backend *backend, int32_t command, const struct body *body,
                   struct files *files)
{
    uint32_t at = body->configuration.at, length = body->configuration.length;
    switch (command) {
    case SYNC_MEMORY:
        return sync_memory(backend, body, files);
    case SET_INTERRUPT:
        return set_interrupt(files);
    case CONFIGURATION_READ:
        return answer(backend, pci_read_configuration(&pci, at, length));
    case CONFIGURATION_WRITE:
        pci_write_configuration(&pci, at, body->configuration.value, length);
        return answer(backend, 0);
    case BAR_READ:
        return answer(backend, pci_read(&pci, body->bar.at % BAR_SIZE, body->bar.length));
    case BAR_WRITE:
        return write_bar(backend, body);
    case DEVICE_RESET:
        return pci_reset(&pci) && answer(backend, 0);
    default:
        return refuse("message %d is unknown", command);
    }
}

/* What has come of the next message. */
static enum stream_state receive(int socket)
{
    enum stream_state state =
        stream_fill(socket, &inbox.head, sizeof inbox.head, &inbox.got, &inbox.files);
    if (state != STREAM_WHOLE)
        return state;
    if (inbox.head.size > sizeof inbox.body)
        return STREAM_WRONG;
    return stream_fill(socket, &inbox.body, inbox.head.size, &inbox.got_body, &inbox.files);
}

static int serve(struct backend *backend)
{
    enum stream_state state = receive(backend->socket);
    if (state == STREAM_WAITS || state == STREAM_GONE)
        return state == STREAM_WAITS;
    if (state == STREAM_WRONG)
        return refuse("the client's bytes are no message"), -1;
    bool served = inbox.files.lost ? refuse("there is no room for its files")
                                   : handle(backend, inbox.head.command, &inbox.body, &inbox.files);
    files_close(&inbox.files);
    memset(&inbox, 0, sizeof inbox);
    if (served)
        return 1;
    return backend->gone ? 0 : -1;
}

static const char help[] = "pci_proxy_balloon FD [--features HEX] [--strict] [--keep] [--hints] "
                           "[--discard-hints] [--lines N]";

int main(int count, char **words)
{
    static struct backend backend;
    static struct options options = {.features = USUAL_FEATURES};
    const struct option_row rows[] = {BACKEND_OPTIONS(&options),
                                      {"help", .answer = help},
                                      {"version", .answer = "pci_proxy_balloon " VB_VERSION},
                                      {0}};
    uint64_t socket;
    process_begin();
    enum command_line said = options_read(count, words, rows, &options.client);
    if (said == LINE_ANSWERED)
        return 0;
    if (said == LINE_WRONG || !options.client ||
        !read_number(options.client, 10, INT_MAX, &socket)) {
        fprintf(stderr, "%s\n", help);
        return 2;
    }
    process_allow_files(FILES_OF_PROCESS + FILES_OF_CLIENT);
    if (!backend_start(&backend, &options))
        return 2;
    backend.socket = (int)socket;
    backend.tell = tell;
    backend.idle = idle;
    pci_start(&pci, &backend);
    puts("listening");
    int status = backend_run(&backend, serve);
    files_close(&inbox.files);
    event_close(&line);
    backend_leave(&backend);
    return status;
}
