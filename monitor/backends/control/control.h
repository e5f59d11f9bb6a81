/* The control socket of a host, and the one that only shows it: any number of clients, a JSON
 * object a line both ways, and nobody is waited for. docs/CONTROL.md is the protocol. */
#ifndef CONTROL_H
#define CONTROL_H
#include "../settings/config.h"

#include <stdbool.h>
#include <stddef.h>
#include <stdint.h>
#include <stdio.h>
#include <sys/types.h>

struct guest_view;
struct host;
struct settings;

/* The version of the protocol; the most bytes of a request with its end of line, and of what a
 * client hasn't read for each guest that there may be; the most clients of a socket. */
enum {
    CONTROL_VERSION = 1,
    MOST_REQUEST = 4096,
    UNREAD_OF_GUEST = 4096,
    MOST_CONTROL_CLIENTS = 256
};

/* Seconds after which no more requests are answered in a turn, and no more events told. */
#define CONTROL_SECONDS 0.001

/* The most bytes that a client hasn't read: one that leaves more isn't served any longer. */
extern size_t most_unread;

struct control_options {
    const char *path; /* of the socket */
    mode_t mode;
    gid_t group;  /* (gid_t)-1: the group of the process */
    int listener; /* a socket that listens already, which is taken where it is as the others say;
                     -1: none */
    bool stays;   /* the socket is for another process once this one has ended */
};

struct control_counters {
    uint64_t clients; /* that are connected now */
    uint64_t accepted;
    uint64_t dropped;           /* clients whose answers or events they left unread */
    uint64_t turned_away;       /* clients that came as one too many */
    uint64_t requests, refused; /* refused: requests that were answered by an error */
};

struct control_client;

/* One of the sockets, with its clients. */
struct control_socket {
    enum control_rights rights;
    int listener, waits; /* waits: that of all sockets; -1: none */
    const struct control_options *options;
    struct control_client *clients[MOST_CONTROL_CLIENTS];
    struct control_counters counters;
    bool rests; /* no file was left for a client that came: none is taken until the next look */
};

/* The fields of a status that is being made, of guests as all of them were when it was begun. */
struct status_parts {
    FILE *out;  /* to the text; NULL: none is being made */
    char *text; /* after the last write to it was flushed */
    size_t length;
    struct guest_view *guests;
    unsigned count, next; /* how many there are; which of them is put next */
    bool fails;           /* there was no memory for a part */
};

/* The fields of a status, as they were made last. */
struct made_status {
    char *text;        /* NULL: they weren't made yet */
    double paid_until; /* when making them will have taken no more than its part of the time */
    bool is_old;       /* a client has asked for a change since they were begun */
    struct status_parts parts;
};

/* The events of a look, on their way to those who follow the host. */
struct followers {
    char *lines;
    size_t length;
    bool is_cut;          /* a line is missing after these, as there was no memory for it */
    uint64_t first;       /* the number of the first of them */
    unsigned count, next; /* how many there are; whose turn it is, by the places of all sockets */
};

struct control {
    struct settings *settings; /* of the host */
    int waits; /* an epoll file, which is ready once there is something to serve; -1: none */
    struct control_socket sockets[CONTROL_SOCKETS];
    struct events *events; /* what the followers know */
    struct followers followers;
    bool is_behind; /* they are still to be told of something that the last look has found */
    struct made_status status;
    bool has_acted; /* in this turn a client that may change the host was answered */
};

/* The word for a socket by what its clients may do: control or status. */
const char *control_socket_word(enum control_rights rights);

/* Makes the sockets; false where it can't, which is said. The options stay. */
bool control_open(struct control *control, const struct control_options options[CONTROL_SOCKETS]);

/* Drops all clients, and removes the sockets. */
void control_close(struct control *control);

/* Takes clients that wait, and serves requests, one of each client in turn, until a call's time is
 * spent or a request may have changed the host. */
void control_serve(struct control *control, struct host *host);

/* Once in each turn of the host's loop: tells followers what has happened since the last call. */
void control_look(struct control *control, struct host *host);

/* Once in each turn of the host's loop: makes a part of a status that was asked for. Who waits for
 * it has the next turn begin at once. */
void control_go_on(struct control *control);

/* Whether anybody is there for whom to look, or couldn't be taken. */
bool control_has_clients(const struct control *control);

#endif
