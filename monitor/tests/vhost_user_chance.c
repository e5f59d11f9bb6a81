/* A client of vhost-user that sends random messages: well-formed ones, and ones that are short,
 * long, or with too many files or none; and writes into its rings at random. It is a test of
 * backends, not a part of them. In three of four connections it is careful, so that what is wrong
 * comes a hundred messages later, and most messages meet running queues.
 *
 *     vhost_user_chance SOCKET MESSAGES SEED
 *
 * It comes to the socket again each time that the backend has closed it, until it has sent n
 * messages; then it says how often it came. Its status is 1 where the backend can't be reached any
 * longer.
 */
#include "../backends/vhost/vhost_user.h"

#include <errno.h>
#include <fcntl.h>
#include <linux/sockios.h>
#include <poll.h>
#include <stdio.h>
#include <stdlib.h>
#include <string.h>
#include <sys/eventfd.h>
#include <sys/ioctl.h>
#include <sys/mman.h>
#include <sys/socket.h>
#include <sys/un.h>
#include <time.h>
#include <unistd.h>

enum {
    REGIONS = 2,
    REGION_BYTES = 1 << 18,
    PAGE = 4096,
    MOST_SENT = 20,
    MOST_OF_LIFE = 400,
    HEAD = 12,
    TRIES = 2000
};
/* How much less often a careful client is wrong; nanoseconds of the longest rest of one whose
 * message isn't read yet. */
enum { CARE = 8, MOST_REST = 1000000 };
enum { MEMORY, OTHER_MEMORY, EVENT, PIPE, SOCKET, NOTHING, KINDS };

static const uint64_t guest_at[REGIONS] = {0x100000, 0x180000},
                      user_at[REGIONS] = {0x7f0000000000, 0x7f1000000000};

static struct {
    int socket;
    int files[KINDS], other_ends[2];
    uint8_t *memory[REGIONS];
    uint64_t protocol; /* the features that it negotiates */
    bool careful;
    uint64_t state; /* what chance is made of */
} client;

/* A number below `most`, at random. */
static uint64_t chance(uint64_t most)
{
    client.state ^= client.state << 13;
    client.state ^= client.state >> 7;
    client.state ^= client.state << 17;
    return client.state % most;
}

static bool one_in(unsigned number)
{
    return chance(number) == 0;
}

/* Whether something is wrong, which it is once in `number` times where the client isn't careful. */
static bool is_wrong(unsigned number)
{
    return one_in(client.careful ? CARE * number : number);
}

static int fail(const char *what)
{
    fprintf(stderr, "vhost_user_chance: %s: %s\n", what, strerror(errno));
    exit(1);
}

/* Files of each kind; the ends that aren't sent stay open. */
static void open_files(void)
{
    int pipe_ends[2], socket_ends[2];
    for (int i = 0; i < REGIONS; i++) {
        client.files[i] = memfd_create("memory", MFD_CLOEXEC);
        if (client.files[i] < 0 || ftruncate(client.files[i], REGION_BYTES))
            fail("memory");
        client.memory[i] =
            mmap(NULL, REGION_BYTES, PROT_READ | PROT_WRITE, MAP_SHARED, client.files[i], 0);
    }
    if (pipe2(pipe_ends, O_CLOEXEC | O_NONBLOCK) ||
        socketpair(AF_UNIX, SOCK_STREAM | SOCK_CLOEXEC, 0, socket_ends))
        fail("files");
    client.files[EVENT] = eventfd(0, EFD_CLOEXEC | EFD_NONBLOCK);
    unsigned end = one_in(2);
    client.files[PIPE] = pipe_ends[end];
    client.files[SOCKET] = socket_ends[0];
    client.other_ends[0] = pipe_ends[1 - end];
    client.other_ends[1] = socket_ends[1];
    client.files[NOTHING] = open("/dev/null", O_RDWR | O_CLOEXEC);
}

static void close_files(void)
{
    close(client.socket);
    close(client.other_ends[0]);
    close(client.other_ends[1]);
    for (int i = 0; i < KINDS; i++)
        close(client.files[i]);
    for (int i = 0; i < REGIONS; i++)
        munmap(client.memory[i], REGION_BYTES);
}

/* Comes to the backend, which may be about to end the connection before. */
static void come(const char *path)
{
    struct sockaddr_un address = {.sun_family = AF_UNIX};
    strncpy(address.sun_path, path, sizeof address.sun_path - 1);
    for (int i = 0; i < TRIES; i++) {
        client.socket = socket(AF_UNIX, SOCK_STREAM | SOCK_CLOEXEC, 0);
        if (!connect(client.socket, (struct sockaddr *)&address, sizeof address))
            return;
        close(client.socket);
        usleep(1000);
    }
    fail(path);
}

/* Waits until the backend has read all that was sent, and leaves it the processor meanwhile; false
 * where it has gone. */
static bool is_read(void)
{
    struct pollfd end = {client.socket, POLLRDHUP, 0};
    struct timespec rest = {0, 0};
    for (int left = 1; left > 0;
         rest.tv_nsec = rest.tv_nsec < MOST_REST ? 2 * rest.tv_nsec + 1000 : MOST_REST)
        if (ppoll(&end, 1, &rest, NULL) > 0 || ioctl(client.socket, SIOCOUTQ, &left))
            return false;
    return true;
}

/* Sends a message with files; false where the backend doesn't read it any longer. What it answers
 * is thrown away. */
static bool send_message(uint32_t request, uint32_t flags, const void *body, size_t size,
                         const int *files, unsigned count)
{
    uint8_t bytes[HEAD + 2 * MOST_BODY], rest[1 << 12];
    uint32_t head[3] = {request, flags, (uint32_t)size};
    union {
        char bytes[CMSG_SPACE(MOST_SENT * sizeof(int))];
        struct cmsghdr aligned;
    } control = {{0}};
    memcpy(bytes, head, HEAD);
    memcpy(bytes + HEAD, body, size);
    struct iovec part = {bytes, HEAD + size};
    struct msghdr message = {.msg_iov = &part, .msg_iovlen = 1};
    if (count > 0) {
        message.msg_control = &control;
        message.msg_controllen = CMSG_SPACE(count * sizeof(int));
        struct cmsghdr *beside = CMSG_FIRSTHDR(&message);
        *beside = (struct cmsghdr){.cmsg_len = CMSG_LEN(count * sizeof(int)),
                                   .cmsg_level = SOL_SOCKET,
                                   .cmsg_type = SCM_RIGHTS};
        memcpy(CMSG_DATA(beside), files, count * sizeof(int));
    }
    while (recv(client.socket, rest, sizeof rest, MSG_DONTWAIT) > 0)
        continue;
    return sendmsg(client.socket, &message, MSG_NOSIGNAL) == (ssize_t)(HEAD + size) && is_read();
}

/* A message of good will: the words of its body, and its files. */
struct good {
    uint32_t request, size;
    uint64_t words[1 + 4 * REGIONS];
    unsigned files[REGIONS], count;
};

static uint64_t two(uint64_t low, uint64_t high)
{
    return low | high << 32;
}

/* A message that a client of good will may send of this queue. */
static struct good good_message(uint32_t request, uint64_t number)
{
    uint64_t at = user_at[number % REGIONS] + 3 * number * PAGE;
    uint64_t region = chance(REGIONS);
    switch (request) {
    case SET_FEATURES:
        return (struct good){request, 8, {0x140000027 & ~(one_in(8) ? UINT64_C(2) : 0)}, {0}, 0};
    case SET_PROTOCOL_FEATURES:
        return (struct good){request, 8, {client.protocol}, {0}, 0};
    case SET_BACKEND_REQ_FD:
        return (struct good){request, 0, {0}, {SOCKET}, 1};
    case SET_MEM_TABLE:
        return (struct good){request,
                             8 + 32 * REGIONS,
                             {REGIONS, guest_at[0], REGION_BYTES, user_at[0], 0, guest_at[1],
                              REGION_BYTES, user_at[1], 0},
                             {MEMORY, OTHER_MEMORY},
                             REGIONS};
    case ADD_MEM_REG:
    case REM_MEM_REG:
        return (struct good){request,
                             40,
                             {0, guest_at[region], REGION_BYTES, user_at[region], 0},
                             {(unsigned)region},
                             request == ADD_MEM_REG};
    case SET_VRING_NUM:
        return (struct good){request, 8, {two(number, 8)}, {0}, 0};
    case SET_VRING_BASE:
        return (struct good){request, 8, {two(number, one_in(8) ? chance(9) : 0)}, {0}, 0};
    case GET_VRING_BASE:
        return (struct good){request, 8, {number}, {0}, 0};
    case SET_VRING_ADDR:
        return (struct good){request, 40, {number, at, at + 2 * PAGE, at + PAGE, 0}, {0}, 0};
    case SET_VRING_KICK:
        return (struct good){request, 8, {number}, {is_wrong(64) ? PIPE : EVENT}, 1};
    case SET_VRING_CALL:
    case SET_VRING_ERR:
        return (struct good){request, 8, {number}, {(unsigned)(EVENT + chance(3))}, 1};
    case SET_VRING_ENABLE:
        return (struct good){request, 8, {two(number, !one_in(8))}, {0}, 0};
    case VRING_KICK:
        return (struct good){request, 8, {number}, {0}, 0};
    case GET_CONFIG:
        return (struct good){request, 20, {two(0, 8), 0}, {0}, 0};
    case SET_CONFIG:
        return (struct good){request, 16, {two(4, 4), two(0, chance(9))}, {0}, 0};
    case SET_STATUS:
        return (struct good){request, 8, {one_in(8) ? 0 : 15}, {0}, 0};
    default:
        return (struct good){request, 0, {0}, {0}, 0};
    }
}

/* Sends it, or one that isn't as it should be: its size, a word, its files, or its flags. */
static bool send_nearly(struct good good, bool well)
{
    uint8_t body[2 * MOST_BODY + 4] = {0};
    int files[MOST_SENT];
    unsigned count = good.count;
    memcpy(body, good.words, sizeof good.words);
    for (unsigned i = 0; i < MOST_SENT; i++)
        files[i] = client.files[i < count ? good.files[i] : chance(KINDS)];
    uint32_t flags = one_in(2) ? 9 : 1, words[] = {0, 1, 2, 8, 9, 256, 0x1000, UINT32_MAX};
    if (!well && one_in(4))
        good.size = (uint32_t)chance(one_in(8) ? 2 * MOST_BODY : 2 * good.size + 9);
    if (!well && one_in(2))
        memcpy(body + 4 * chance(1 + good.size / 4), &words[chance(8)], 4);
    if (!well && one_in(4))
        count = (unsigned)chance(one_in(8) ? MOST_SENT : 4);
    if (!well && one_in(16))
        flags = (uint32_t)chance(32);
    return send_message(good.request, flags, body, good.size, files, count);
}

/* A length that this queue takes, of page numbers, statistics or pages. */
static uint32_t good_length(uint64_t number)
{
    static const uint32_t units[] = {4, 4, 10, PAGE};
    bool is_long = number < 2 && one_in(4);
    return units[number] * (uint32_t)(1 + chance(is_long ? 2 * PAGE : 3));
}

/* Writes the descriptors of a queue, some of which are wrong. Pages that are reported have no
 * rings. */
static void describe(uint8_t *ring, uint64_t number)
{
    bool wrong = is_wrong(2), reports = number == 3;
    for (unsigned i = 0; i < 8; i++) {
        uint64_t page = reports ? 16 + chance(46) : chance(64);
        uint64_t address =
            wrong && one_in(4) ? chance(UINT64_MAX) : guest_at[chance(2)] + PAGE * page;
        uint32_t length = wrong && one_in(2) ? (uint32_t)chance(UINT32_MAX) : good_length(number);
        uint16_t flags = wrong && one_in(4) ? (uint16_t)chance(8)
                         : reports          ? 2
                                            : 0,
                 next = (uint16_t)chance(9);
        memcpy(ring + 16 * i, &address, 8);
        memcpy(ring + 16 * i + 8, &length, 4);
        memcpy(ring + 16 * i + 12, &flags, 2);
        memcpy(ring + 16 * i + 14, &next, 2);
    }
}

/* Writes into a ring, usually nearly what would be right. */
static void scribble(void)
{
    uint64_t number = chance(4);
    uint8_t *ring = client.memory[number % REGIONS] + 3 * number * PAGE;
    uint16_t index, heads[8];
    describe(ring, number);
    memcpy(&index, ring + 2 * PAGE + 2, 2);
    index = (uint16_t)(index + chance(9));
    for (unsigned i = 0; i < 8; i++)
        heads[i] = (uint16_t)chance(is_wrong(64) ? 9 : 8);
    memcpy(ring + PAGE + 4, heads, sizeof heads);
    memcpy(ring + PAGE + 2, &index, 2);
    uint64_t one = 1;
    if (write(client.files[EVENT], &one, sizeof one) < 0)
        return; /* the event is full: it has come often enough */
}

/* What a client says until its device is ready, or a part of that; how many messages it was. */
static unsigned start(void)
{
    static const uint32_t once[] = {SET_OWNER, SET_PROTOCOL_FEATURES, SET_BACKEND_REQ_FD,
                                    SET_FEATURES, SET_MEM_TABLE};
    static const uint32_t each[] = {
        SET_VRING_NUM,  SET_VRING_BASE, SET_VRING_ADDR,
        SET_VRING_CALL, SET_VRING_KICK, SET_VRING_ENABLE,
    };
    unsigned sent = 0, most = one_in(4) ? (unsigned)chance(30) : 30;
    for (unsigned i = 0; i < 5 && sent < most; i++, sent++)
        if (!send_nearly(good_message(once[i], 0), true))
            return sent;
    for (unsigned i = 0; i < 24 && sent < most; i++, sent++)
        if (!send_nearly(good_message(each[i % 6], i / 6), true))
            return sent;
    return sent + (most == 30 && send_nearly(good_message(SET_STATUS, 0), true));
}

/* What a message asks for: usually something that there is; where the client is careful, something
 * that no queue's state forbids. */
static uint32_t any_request(void)
{
    static const uint32_t known[] = {
        GET_FEATURES,       GET_PROTOCOL_FEATURES,
        GET_QUEUE_NUM,      GET_MAX_MEM_SLOTS,
        GET_STATUS,         GET_CONFIG,
        SET_CONFIG,         SET_PROTOCOL_FEATURES,
        SET_BACKEND_REQ_FD, SET_VRING_ENABLE,
        SET_VRING_CALL,     SET_VRING_ERR,
        SET_VRING_KICK,     SET_FEATURES,
        SET_OWNER,          RESET_OWNER,
        SET_MEM_TABLE,      SET_VRING_NUM,
        SET_VRING_ADDR,     SET_VRING_BASE,
        GET_VRING_BASE,     SET_STATUS,
        RESET_DEVICE,       VRING_KICK,
        ADD_MEM_REG,        REM_MEM_REG,
    };
    enum { KNOWN = sizeof known / sizeof known[0], ALWAYS_ALLOWED = 13 };
    if (is_wrong(100))
        return (uint32_t)chance(64);
    if (one_in(2) && (client.protocol & IN_BAND_FEATURE))
        return VRING_KICK;
    return known[chance(is_wrong(2) ? KNOWN : ALWAYS_ALLOWED)];
}

/* One connection, which lasts until the backend ends it or chance does; how many messages it
  * was. */
static unsigned live(void)
{
    for (int i = 0; i < REGIONS; i++)
        memset(client.memory[i], 0, 16 * PAGE);
    client.careful = !one_in(4);
    client.protocol = one_in(2) ? 0x1e229 : 0x1e229 & ~IN_BAND_FEATURE;
    unsigned sent = start();
    for (unsigned i = 0; i < MOST_OF_LIFE; i++) {
        while (one_in(3))
            scribble();
        sent++;
        if (!send_nearly(good_message(any_request(), chance(is_wrong(64) ? 6 : 4)), !is_wrong(20)))
            return sent;
    }
    return sent;
}

int main(int count, char **words)
{
    unsigned long long sent = 0, wanted = count == 4 ? strtoull(words[2], NULL, 10) : 0, times = 0;
    if (wanted == 0) {
        fputs("vhost_user_chance SOCKET MESSAGES SEED\n", stderr);
        return 2;
    }
    client.state = 0x9e3779b97f4a7c15 ^ strtoull(words[3], NULL, 10);
    for (; sent < wanted; times++) {
        open_files();
        come(words[1]);
        sent += live();
        close_files();
    }
    printf("messages %llu connections %llu\n", sent, times);
    return 0;
}
