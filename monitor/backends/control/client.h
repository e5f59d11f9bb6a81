/* One client of a control socket: what came of its next request, and what it hasn't read yet. */
#ifndef CONTROL_CLIENT_H
#define CONTROL_CLIENT_H
#include "control.h"

#include <jansson.h>

struct control_client {
    int socket;
    enum control_rights rights; /* those of the socket at which it came */
    uid_t user;                 /* that has connected, and its process, as the kernel says */
    pid_t process;
    char request[MOST_REQUEST];
    size_t came;  /* bytes of requests that came and aren't served */
    char *unread; /* what the client hasn't read, or NULL */
    size_t unread_bytes, unread_room;
    uint32_t waits_for; /* the events of its socket that are waited for */
    const char *rest;   /* fields of its answer after those of an object, as text without the first
                           brace; NULL: none */
    bool asks_again;    /* its request stays, as what answers it isn't whole yet */
    uint64_t follows;   /* the number of the first event that it is sent; UINT64_MAX: it has asked
                           for none */
    bool ends;          /* nothing more is read of it; what came is answered yet */
    bool overrun;       /* it left more unread than there is room for */
    bool gone;          /* it can't be sent anything any longer */
};

/* A client with this file, which is its own from now on; NULL where there is no memory. */
struct control_client *client_new(int socket, enum control_rights rights);

/* Closes its file, and frees it. */
void client_free(struct control_client *client);

/* An object as a line, with the fields after its own, which may be NULL; its bytes in `*length`.
 * NULL where there is no memory. */
char *client_text(const json_t *object, const char *rest, size_t *length);

/* Sends a line, as far as the client reads; what is left is kept for it. NULL: there was no memory
 * for it. */
void client_send_text(struct control_client *client, const char *text, size_t length);

/* Sends an object as a line, with the rest of its answer. Takes the object, which may be NULL. */
void client_send(struct control_client *client, json_t *object);

/* Sends what is unread, as far as the client reads. */
void client_flush(struct control_client *client);

/* Whether it can be served any longer. */
bool client_is_served(const struct control_client *client);

/* Reads what has come; at its end nothing more is read. */
void client_read(struct control_client *client);

/* The next whole line without its end, or NULL; `*length` are its bytes. It stays until
 * client_next_line. */
const char *client_line(const struct control_client *client, size_t *length);
void client_next_line(struct control_client *client);

/* Whether there is no room for more of a line that has no end. */
bool client_line_is_too_long(const struct control_client *client);

/* Nothing more is read of it, what came isn't answered, and it follows no longer. */
void client_stop(struct control_client *client);

#endif
