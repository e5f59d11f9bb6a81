#include "client.h"

#include "../base/process.h"

#include <errno.h>
#include <stdlib.h>
#include <string.h>
#include <sys/socket.h>

/* Digits of a number with a fraction. */
enum { MOST_DIGITS = 15 };

size_t most_unread;

struct control_client *client_new(int socket, enum control_rights rights)
{
    struct control_client *client = calloc(1, sizeof *client);
    struct ucred its = {.uid = (uid_t)-1};
    socklen_t size = sizeof its;
    getsockopt(socket, SOL_SOCKET, SO_PEERCRED, &its, &size);
    if (client)
        *client = (struct control_client){.socket = socket,
                                          .rights = rights,
                                          .user = its.uid,
                                          .process = its.pid,
                                          .follows = UINT64_MAX};
    return client;
}

void client_free(struct control_client *client)
{
    file_close(client->socket);
    free(client->unread);
    free(client);
}

/* Whether a call that was refused would have had to wait. */
static bool would_wait(void)
{
    return errno == EAGAIN || errno == EWOULDBLOCK || errno == EINTR;
}

/* Sends bytes without waiting; returns how many were sent. */
static size_t send_some(struct control_client *client, const char *bytes, size_t length)
{
    ssize_t sent = send(client->socket, bytes, length, MSG_DONTWAIT | MSG_NOSIGNAL);
    if (sent < 0 && !would_wait())
        client->gone = true;
    return sent < 0 ? 0 : (size_t)sent;
}

/* Makes room for more unread bytes; false where the client may have no more. */
static bool make_room(struct control_client *client, size_t length)
{
    size_t wanted = client->unread_bytes + length;
    if (wanted <= client->unread_room)
        return true;
    if (wanted > most_unread)
        return false;
    size_t room = wanted * 2 < most_unread ? wanted * 2 : most_unread;
    char *unread = realloc(client->unread, room);
    if (!unread)
        return false;
    client->unread = unread;
    client->unread_room = room;
    return true;
}

void client_flush(struct control_client *client)
{
    if (client->gone || client->unread_bytes == 0)
        return;
    size_t sent = send_some(client, client->unread, client->unread_bytes);
    client->unread_bytes -= sent;
    memmove(client->unread, client->unread + sent, client->unread_bytes);
    if (client->unread_bytes > 0)
        return;
    free(client->unread);
    client->unread = NULL;
    client->unread_room = 0;
}

/* Sends bytes after those that are unread, as far as the client reads. */
static void put(struct control_client *client, const char *bytes, size_t length)
{
    size_t sent = client->unread_bytes > 0 ? 0 : send_some(client, bytes, length);
    if (client->gone || sent == length)
        return;
    client->overrun = !make_room(client, length - sent);
    if (client->overrun)
        return;
    memcpy(client->unread + client->unread_bytes, bytes + sent, length - sent);
    client->unread_bytes += length - sent;
}

char *client_text(const json_t *object, const char *rest, size_t *length)
{
    char *text =
        object ? json_dumps(object, JSON_COMPACT | JSON_REAL_PRECISION(MOST_DIGITS)) : NULL;
    size_t own = text ? strlen(text) : 0, more = rest ? strlen(rest) : 0;
    char *line = text ? realloc(text, own + more + 1) : NULL;
    if (!line) {
        free(text);
        return NULL;
    }
    if (rest) {
        line[own - 1] = ','; /* in place of the last brace */
        memcpy(line + own, rest, more + 1);
    }
    line[own + more] = '\n';
    *length = own + more + 1;
    return line;
}

void client_send_text(struct control_client *client, const char *text, size_t length)
{
    client->overrun |= !text;
    if (client_is_served(client))
        put(client, text, length);
}

void client_send(struct control_client *client, json_t *object)
{
    size_t length = 0;
    char *text = client_text(object, client->rest, &length);
    json_decref(object);
    client->rest = NULL;
    client_send_text(client, text, length);
    free(text);
}

bool client_is_served(const struct control_client *client)
{
    return !client->gone && !client->overrun;
}

void client_read(struct control_client *client)
{
    size_t room = sizeof client->request - client->came;
    if (room == 0 || client->ends)
        return;
    ssize_t got = recv(client->socket, client->request + client->came, room, MSG_DONTWAIT);
    client->ends = got == 0;
    client->gone |= got < 0 && !would_wait();
    client->came += got > 0 ? (size_t)got : 0;
}

void client_stop(struct control_client *client)
{
    client->ends = true;
    client->came = 0;
    client->follows = UINT64_MAX;
}

const char *client_line(const struct control_client *client, size_t *length)
{
    const char *end = memchr(client->request, '\n', client->came);
    if (!end)
        return NULL;
    *length = (size_t)(end - client->request);
    return client->request;
}

void client_next_line(struct control_client *client)
{
    const char *end = memchr(client->request, '\n', client->came);
    size_t length = (size_t)(end + 1 - client->request);
    client->came -= length;
    memmove(client->request, client->request + length, client->came);
}

bool client_line_is_too_long(const struct control_client *client)
{
    return client->came == sizeof client->request && !memchr(client->request, '\n', client->came);
}
