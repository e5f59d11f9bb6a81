/* The control sockets themselves: who comes, who goes, and whose turn it is. */
#include "events.h"
#include "followers.h"
#include "requests.h"
#include "socket.h"
#include "status.h"

#include "../base/loop.h"
#include "../base/process.h"
#include "../base/say.h"

#include <errno.h>
#include <stdlib.h>
#include <string.h>
#include <sys/epoll.h>
#include <sys/socket.h>

/* Files that are served in a turn at most; what an event is about: a client's place at a socket, or
 * the listener, which is after those. */
enum { MOST_READY = 64, LISTENER = MOST_CONTROL_CLIENTS, PLACES };

const char *control_socket_word(enum control_rights rights)
{
    static const char *const words[] = {[MAY_CHANGE] = "control", [MAY_LOOK] = "status"};
    return words[rights];
}

/* Waits for these events of a file, which has a place at a socket. */
static bool wait_for(const struct control_socket *its, int operation, int file, uint32_t events,
                     unsigned place)
{
    struct epoll_event event = {.events = events, .data.u32 = its->rights * PLACES + place};
    return epoll_ctl(its->waits, operation, file, &event) == 0;
}

static bool open_socket(struct control_socket *its)
{
    const struct control_options *options = its->options;
    bool is_kept = socket_is_kept(options);
    its->listener = is_kept ? options->listener : socket_listen(options);
    if (!is_kept && options->listener >= 0)
        file_close(options->listener);
    if (its->listener >= 0 && wait_for(its, EPOLL_CTL_ADD, its->listener, EPOLLIN, LISTENER))
        return true;
    return say_fault("%s: %s", options->path, strerror(errno));
}

bool control_open(struct control *control, const struct control_options options[CONTROL_SOCKETS])
{
    *control = (struct control){.events = events_new(), .waits = epoll_create1(EPOLL_CLOEXEC)};
    for (unsigned i = 0; i < CONTROL_SOCKETS; i++)
        control->sockets[i] = (struct control_socket){
            .listener = -1, .waits = control->waits, .options = &options[i], .rights = i};
    bool good = (control->events && control->waits >= 0) ||
                say_fault("control sockets: %s", strerror(errno));
    for (unsigned i = 0; i < CONTROL_SOCKETS && good; i++)
        good = open_socket(&control->sockets[i]);
    if (!good)
        control_close(control);
    return good;
}

static void close_socket(struct control_socket *its)
{
    for (unsigned i = 0; i < MOST_CONTROL_CLIENTS; i++)
        if (its->clients[i])
            client_free(its->clients[i]);
    if (its->listener >= 0 && !its->options->stays)
        socket_remove(its->options->path);
    if (its->listener >= 0)
        file_close(its->listener);
    *its = (struct control_socket){.listener = -1, .waits = -1};
}

void control_close(struct control *control)
{
    for (unsigned i = 0; i < CONTROL_SOCKETS; i++)
        close_socket(&control->sockets[i]);
    if (control->waits >= 0)
        file_close(control->waits);
    events_free(control->events);
    followers_forget(&control->followers);
    status_forget(&control->status);
    control->waits = -1;
    control->events = NULL;
}

/* Whether a request of a client is there whole. */
static bool has_line(const struct control_client *client)
{
    size_t length;
    return client_line(client, &length) != NULL;
}

/* What is waited for of a client: requests while it may send some; and room for what is unread, or
 * for answers to requests that are there already. */
static uint32_t events_of(const struct control_client *client)
{
    return (client->ends ? 0 : EPOLLIN) |
           (client->unread_bytes > 0 || has_line(client) ? EPOLLOUT : 0);
}

/* Keeps waiting for a client, or takes its place away. Who follows may have said all that it is
 * to say. */
static void settle(struct control_socket *its, unsigned place)
{
    struct control_client *client = its->clients[place];
    uint32_t events = events_of(client);
    bool stays = !client->ends || client->follows != UINT64_MAX || events;
    if (client_is_served(client) && stays) {
        if (events != client->waits_for)
            wait_for(its, EPOLL_CTL_MOD, client->socket, events, place);
        client->waits_for = events;
        return;
    }
    its->counters.dropped += client->overrun;
    its->counters.clients--;
    /* A process that begins just now has the file for a moment, too: closing it alone isn't the end
     * of its events. */
    wait_for(its, EPOLL_CTL_DEL, client->socket, 0, place);
    client_free(client);
    its->clients[place] = NULL;
}

/* Refuses a client that has come as one too many. It may not read that: nobody waits for it. */
static void turn_away(struct control_socket *its, int socket)
{
    struct control_client one = {.socket = socket};
    json_t *why = request_refusal("too-many-clients", NULL, "%d clients are connected already",
                                  MOST_CONTROL_CLIENTS);
    client_send(&one, request_headed(NULL, why));
    its->counters.turned_away++;
    file_close(socket);
}

/* Gives a client its place; false where there is none, or no memory. */
static bool seat(struct control_socket *its, int socket)
{
    unsigned place = 0;
    while (place < MOST_CONTROL_CLIENTS && its->clients[place])
        place++;
    struct control_client *client =
        place < MOST_CONTROL_CLIENTS ? client_new(socket, its->rights) : NULL;
    if (!client)
        return false;
    client->waits_for = EPOLLIN;
    its->clients[place] = client;
    its->counters.accepted++;
    its->counters.clients++;
    if (!wait_for(its, EPOLL_CTL_ADD, socket, EPOLLIN, place))
        client->gone = true, settle(its, place);
    return true;
}

/* Takes a client that waits, if there is one. Where no file is left for it, it waits until the next
 * look. */
static void take(struct control_socket *its)
{
    int socket = accept4(its->listener, NULL, NULL, SOCK_CLOEXEC | SOCK_NONBLOCK);
    if (socket >= 0) {
        if (!seat(its, socket))
            turn_away(its, socket);
        return;
    }
    if (errno == EAGAIN || errno == ECONNABORTED || errno == EINTR)
        return;
    complain("a client of the %s socket can't come: %s", control_socket_word(its->rights),
             strerror(errno));
    its->rests = wait_for(its, EPOLL_CTL_MOD, its->listener, 0, LISTENER);
}

/* Answers a line that never ends, and takes no more from its client. */
static void refuse_long_line(struct control_socket *its, struct control_client *client)
{
    its->counters.requests++;
    its->counters.refused++;
    client_stop(client);
    json_t *why = request_refusal(
        "too-long", NULL, "a request has at most %d bytes with its end of line", MOST_REQUEST);
    client_send(client, request_headed(NULL, why));
}

/* Answers the next request of a client that is there whole. */
static void answer_line(struct control *control, struct control_socket *its,
                        struct control_client *client, struct host *host)
{
    size_t length;
    const char *line = client_is_served(client) ? client_line(client, &length) : NULL;
    json_t *answer = line ? request_answer(control, client, host, line, length) : NULL;
    if (line && !client->asks_again) {
        its->counters.requests++;
        its->counters.refused += !json_is_true(json_object_get(answer, "ok"));
        client_next_line(client);
        client_send(client, answer);
    }
    if (client_line_is_too_long(client))
        refuse_long_line(its, client);
}

/* Serves what an event is about. */
static void serve(struct control *control, const struct epoll_event *event, struct host *host)
{
    struct control_socket *its = &control->sockets[event->data.u32 / PLACES];
    unsigned place = event->data.u32 % PLACES;
    if (place == LISTENER) {
        take(its);
        return;
    }
    client_flush(its->clients[place]);
    if (event->events & (EPOLLIN | EPOLLHUP | EPOLLERR))
        client_read(its->clients[place]);
    answer_line(control, its, its->clients[place], host);
    its->clients[place]->gone |= its->clients[place]->ends && event->events & EPOLLHUP;
    settle(its, place);
}

/* The file that was served last is the last one to be ready again: each has its turn. */
void control_serve(struct control *control, struct host *host)
{
    struct epoll_event ready;
    double end = loop_seconds() + CONTROL_SECONDS;
    control->has_acted = false;
    for (unsigned served = 0; served < MOST_READY && epoll_wait(control->waits, &ready, 1, 0) == 1;
         served++) {
        serve(control, &ready, host);
        if (control->has_acted || loop_seconds() >= end)
            break;
    }
}

/* Takes clients again where no file was left for one, and settles what the events that were told
 * leave. */
static void look(struct control_socket *its)
{
    if (its->rests)
        its->rests = !wait_for(its, EPOLL_CTL_MOD, its->listener, EPOLLIN, LISTENER);
    for (unsigned i = 0; i < MOST_CONTROL_CLIENTS; i++)
        if (its->clients[i])
            settle(its, i);
}

void control_go_on(struct control *control)
{
    status_go_on(&control->status);
}

bool control_has_clients(const struct control *control)
{
    bool has = false;
    for (unsigned i = 0; i < CONTROL_SOCKETS; i++)
        has |= control->sockets[i].counters.clients > 0 || control->sockets[i].rests;
    return has;
}

void control_look(struct control *control, struct host *host)
{
    events_look(control, host);
    for (unsigned i = 0; i < CONTROL_SOCKETS; i++)
        look(&control->sockets[i]);
}
