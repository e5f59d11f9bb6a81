#include "message.h"

#include <sys/socket.h>

bool lending_send(int channel, struct lending_message *message)
{
    message->version = LENDING_VERSION;
    return channel >= 0 && send(channel, message, sizeof *message, MSG_DONTWAIT | MSG_NOSIGNAL) ==
                               (ssize_t)sizeof *message;
}

/* Whether a read says that the other end was closed with messages unread: the kernel says so once,
 * before what that end had sent. */
static bool is_reset(ssize_t got)
{
    return got < 0 && errno == ECONNRESET;
}

/* What has come, by what the read of a message has answered. */
static int take(ssize_t got, struct lending_message *message)
{
    if (got < 0)
        return errno == EAGAIN || errno == EINTR ? 0 : -1;
    if (got != (ssize_t)sizeof *message || message->version != LENDING_VERSION)
        return -1;
    message->words[MOST_WORDS - 1] = 0;
    message->figure_count = message->figure_count < MOST_TAGS ? message->figure_count : MOST_TAGS;
    return 1;
}

/* Has each message read to its place by one call; as recvmmsg(2). */
static int read_all(int channel, struct lending_message messages[],
                    struct mmsghdr headers[MOST_AT_ONCE], unsigned most)
{
    struct iovec parts[MOST_AT_ONCE];
    for (unsigned i = 0; i < most; i++) {
        parts[i] = (struct iovec){&messages[i], sizeof messages[i]};
        headers[i].msg_hdr = (struct msghdr){.msg_iov = &parts[i], .msg_iovlen = 1};
    }
    int came = recvmmsg(channel, headers, most, MSG_DONTWAIT | MSG_TRUNC, NULL);
    return is_reset(came) ? recvmmsg(channel, headers, most, MSG_DONTWAIT | MSG_TRUNC, NULL) : came;
}

unsigned lending_read(int channel, struct lending_message messages[], unsigned most, bool *ended)
{
    struct mmsghdr headers[MOST_AT_ONCE];
    int came = read_all(channel, messages, headers, most), count = 0;
    *ended = came < 0 && take(came, messages) < 0;
    while (count < came && take(headers[count].msg_len, &messages[count]) > 0)
        count++;
    *ended |= count < came;
    return (unsigned)count;
}

bool lending_names_senders(int channel)
{
    return !setsockopt(channel, SOL_SOCKET, SO_PASSCRED, &(int){1}, sizeof(int));
}

/* There is room for the sender's number alone: a file that came beside would be dropped by the
 * kernel. What comes beside a message of such a socket is of SOL_SOCKET. */
int lending_read_from(int channel, struct lending_message *message, pid_t *sender)
{
    union {
        char bytes[CMSG_SPACE(sizeof(struct ucred))];
        struct cmsghdr aligned;
    } control;
    struct iovec part = {message, sizeof *message};
    struct msghdr header = {.msg_iov = &part,
                            .msg_iovlen = 1,
                            .msg_control = &control,
                            .msg_controllen = sizeof control};
    ssize_t came = recvmsg(channel, &header, MSG_DONTWAIT | MSG_TRUNC);
    if (is_reset(came))
        came = recvmsg(channel, &header, MSG_DONTWAIT | MSG_TRUNC);
    int got = take(came, message);
    const struct cmsghdr *its = got > 0 ? CMSG_FIRSTHDR(&header) : NULL;
    struct ucred credentials = {0};
    if (its && its->cmsg_type == SCM_CREDENTIALS)
        memcpy(&credentials, CMSG_DATA(its), sizeof credentials);
    *sender = credentials.pid;
    return got;
}
