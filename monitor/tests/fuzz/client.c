#include "client.h"

#include "plans.h"
#include "script.h"
#include "sent.h"

#include <fcntl.h>
#include <sys/eventfd.h>
#include <sys/mman.h>
#include <sys/socket.h>
#include <unistd.h>

enum { HEAD = 12, ASKS_FOR_ANSWER = 8, VERSION = 1, BUFFER_PAGE = 16, MOST_POSTED = 40 };

struct client client;

int client_comes(void)
{
    int ends[2];
    client = (struct client){
        .others = {-1, -1}, .source = -1, .log = -1, .events = {-1, -1, -1, -1, -1, -1, -1, -1}};
    demand(!socketpair(AF_UNIX, SOCK_STREAM | SOCK_CLOEXEC | SOCK_NONBLOCK, 0, ends));
    for (unsigned i = 0; i < REGIONS; i++) {
        client.memory[i] = memfd_create("memory", MFD_CLOEXEC);
        demand(client.memory[i] >= 0 && !ftruncate(client.memory[i], REGION_BYTES));
        client.bytes[i] =
            mmap(NULL, REGION_BYTES, PROT_READ | PROT_WRITE, MAP_SHARED, client.memory[i], 0);
        demand(client.bytes[i] != MAP_FAILED);
    }
    client.socket = ends[0];
    return ends[1];
}

static void let_go(int *file)
{
    if (*file >= 0)
        close(*file);
    *file = -1;
}

static void let_go_of_events(void)
{
    for (unsigned i = 0; i < EVENTS; i++)
        let_go(&client.events[i]);
}

void client_ends(void)
{
    shutdown(client.socket, SHUT_RDWR);
}

bool client_has(int file)
{
    bool has = file == client.socket || file == client.source || file == client.log ||
               file == client.others[0] || file == client.others[1];
    for (unsigned i = 0; i < EVENTS; i++)
        has |= file == client.events[i];
    for (unsigned i = 0; i < REGIONS; i++)
        has |= file == client.memory[i];
    return has;
}

void client_goes(void)
{
    let_go(&client.socket);
    let_go(&client.others[0]), let_go(&client.others[1]), let_go(&client.source);
    let_go(&client.log);
    let_go_of_events();
    for (unsigned i = 0; i < REGIONS; i++) {
        munmap(client.bytes[i], REGION_BYTES);
        let_go(&client.memory[i]);
    }
}

/* Sends bytes with files; what is answered is thrown away. */
static void send_all(const void *bytes, size_t size, const int *files, unsigned count)
{
    union {
        char bytes[CMSG_SPACE((MOST_FILES + 1) * sizeof(int))];
        struct cmsghdr aligned;
    } control = {0};
    struct iovec part = {(void *)bytes, size};
    struct msghdr header = {.msg_iov = &part, .msg_iovlen = 1};
    char answer[1024];
    if (count > 0) {
        header.msg_control = &control;
        header.msg_controllen = CMSG_SPACE(count * sizeof(int));
        control.aligned = (struct cmsghdr){CMSG_LEN(count * sizeof(int)), SOL_SOCKET, SCM_RIGHTS};
        memcpy(CMSG_DATA(&control.aligned), files, count * sizeof(int));
    }
    sendmsg(client.socket, &header, MSG_NOSIGNAL | MSG_DONTWAIT);
    while (recv(client.socket, answer, sizeof answer, MSG_DONTWAIT) > 0)
        continue;
}

/* A log of the pages that are written; now and then its file is too short for it. */
static int open_log(void)
{
    int file = memfd_create("log", MFD_CLOEXEC);
    demand(file >= 0 && !ftruncate(file, next_byte() == 255 ? 1 : PAGE));
    let_go(&client.log);
    client.log = file;
    return dup(file);
}

/* A pipe into which nothing goes until its client reads it; or the end of a stream whose other end
 * is closed while something is left unread there. */
static int open_full(void)
{
    uint8_t bytes[PAGE] = {0};
    int ends[2];
    demand(!pipe2(ends, O_CLOEXEC) && fcntl(ends[1], F_SETPIPE_SZ, PAGE) == PAGE &&
           write(ends[1], bytes, PAGE) == PAGE);
    let_go(&client.others[1]);
    client.others[1] = ends[0];
    return ends[1];
}

static int open_broken(void)
{
    int ends[2];
    demand(!socketpair(AF_UNIX, SOCK_STREAM | SOCK_CLOEXEC, 0, ends) && write(ends[1], "", 1) == 1);
    close(ends[0]);
    return ends[1];
}

/* The end of a pipe by which a device comes, whole or not; now and then the pipe stays open. */
static int open_source(void)
{
    uint8_t bytes[MOST_SAVED];
    int ends[2];
    size_t length = saved_bytes(bytes);
    demand(!pipe2(ends, O_CLOEXEC) && write(ends[1], bytes, length) == (ssize_t)length);
    let_go(&client.source);
    client.source = ends[1];
    if (next_byte() % 16 != 15)
        let_go(&client.source);
    return ends[0];
}

/* A file of this kind to hand over. */
static int open_kind(unsigned kind)
{
    int ends[2] = {-1, -1};
    if (kind == MEMORY || kind == OTHER_MEMORY)
        return dup(client.memory[kind]);
    if (kind == LOG || kind == SOURCE)
        return kind == LOG ? open_log() : open_source();
    if (kind == FULL || kind == BROKEN)
        return kind == FULL ? open_full() : open_broken();
    if (kind == EVENT) {
        int *event = &client.events[client.handed++ % EVENTS];
        let_go(event);
        *event = eventfd(0, EFD_CLOEXEC | EFD_NONBLOCK);
        return dup(*event);
    }
    if (kind == NOTHING)
        return open("/dev/null", O_RDWR | O_CLOEXEC);
    demand(kind == PIPE ? !pipe2(ends, O_CLOEXEC)
                        : !socketpair(AF_UNIX, SOCK_STREAM | SOCK_CLOEXEC, 0, ends));
    let_go(&client.others[kind == PIPE]);
    client.others[kind == PIPE] = ends[0];
    return ends[1];
}

static void send_message(const struct sent *sent)
{
    int files[MOST_FILES + 1];
    uint8_t bytes[HEAD + sizeof sent->body];
    const uint32_t head[] = {sent->request, sent->flags, sent->size};
    memcpy(bytes, head, HEAD);
    memcpy(bytes + HEAD, sent->body, sent->size);
    for (unsigned i = 0; i < sent->files; i++)
        files[i] = open_kind(sent->kinds[i] % KINDS);
    send_all(bytes, HEAD + sent->size, files, sent->files);
    for (unsigned i = 0; i < sent->files; i++)
        close(files[i]);
}

void client_sends(void)
{
    enum { REQUESTS = 44, TWISTS = 16, OF_QUEUES = 6 };
    struct sent sent = {.request = next_below(REQUESTS), .flags = VERSION | ASKS_FOR_ANSWER};
    unsigned queue = next_below(OF_QUEUES), choice = next_byte();
    sent_fill(&sent, queue, choice);
    sent_twist(&sent, next_below(TWISTS));
    send_message(&sent);
}

void client_tells(uint32_t request, unsigned queue, unsigned choice)
{
    struct sent sent = {.request = request, .flags = VERSION | ASKS_FOR_ANSWER};
    sent_fill(&sent, queue, choice);
    send_message(&sent);
}

void client_babbles(void)
{
    uint8_t bytes[64];
    size_t count = next_bytes(bytes, next_below(sizeof bytes));
    if (count > 0)
        send_all(bytes, count, NULL, 0);
}

static void write_guest(unsigned at, const void *data, size_t size)
{
    if (at + size <= REGION_BYTES && !client.cut)
        memcpy(client.bytes[0] + at, data, size);
}

/* A request of pages, or of what else the script says, in a chain of one descriptor. */
void client_posts(void)
{
    unsigned queue = next_below(5), count = next_below(MOST_POSTED), first = next_byte(),
             at = queue * OF_QUEUE;
    uint32_t pages[MOST_POSTED];
    uint16_t slot = client.available[queue] % 8, head = (uint16_t)next_below(9),
             flags = (uint16_t)next_below(4);
    for (unsigned i = 0; i < count; i++)
        pages[i] = (uint32_t)((first < 200 ? guest_at[1] : guest_at[0]) / PAGE) +
                   (first + i) % (PAGES_OF_REGION + (first == 255));
    write_guest(BUFFER_PAGE * PAGE, pages, count * sizeof pages[0]);
    struct {
        uint64_t address;
        uint32_t length;
        uint16_t flags, next;
    } piece = {guest_at[0] + BUFFER_PAGE * PAGE, count * 4, (uint16_t)(queue == 3 ? 2 : flags),
               head};
    client.available[queue]++;
    write_guest(at + head * 16u, &piece, sizeof piece);
    write_guest(at + PAGE + 4 + 2u * slot, &head, sizeof head);
    write_guest(at + PAGE + 2, &client.available[queue], sizeof client.available[queue]);
}

void client_scribbles(void)
{
    uint8_t bytes[32];
    unsigned at = next_below(17) * PAGE + next_byte();
    write_guest(at, bytes, next_bytes(bytes, next_below(sizeof bytes)));
}

void client_kicks(void)
{
    for (unsigned i = 0; i < EVENTS; i++)
        if (client.events[i] >= 0)
            eventfd_write(client.events[i], 1);
    if (next_byte() != 255)
        return;
    unsigned file = next_below(REGIONS + 1);
    if (file < REGIONS)
        client.cut |= ftruncate(client.memory[file], 0) == 0;
    else if (client.log >= 0)
        demand(!ftruncate(client.log, 0));
}
