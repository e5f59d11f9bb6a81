/* The client of a guest's process that is fuzzed: its files, its memory, and the messages that it
 * sends. */
#ifndef FUZZ_CLIENT_H
#define FUZZ_CLIENT_H
#include <stdbool.h>
#include <stdint.h>

enum { EVENTS = 8, REGIONS = 2, REGION_BYTES = 1 << 17, PAGES_OF_REGION = REGION_BYTES / 4096 };

struct client {
    int socket;         /* its end; -1: it has gone */
    int events[EVENTS]; /* the last ones that it handed over, in turn */
    unsigned handed;
    int others[2]; /* the other ends of the last socket and of the last pipe that it handed over */
    int source;    /* the end of the last pipe by which it has a device loaded */
    int log;       /* the last one that it handed over */
    int memory[REGIONS]; /* files */
    uint8_t *bytes[REGIONS];
    uint16_t available[8]; /* of each queue */
    bool cut;              /* its memory's files are cut off */
    bool migrates;         /* its guest may */
};

extern struct client client;

/* Comes with new memory; returns the other end of its socket. Ends its connection. Goes. */
int client_comes(void);
void client_ends(void);
void client_goes(void);

/* Whether it has this file. */
bool client_has(int file);

/* Sends a message as a client usually does; `choice` says which of several. */
void client_tells(uint32_t request, unsigned queue, unsigned choice);

/* Sends a message by the next bytes of the script; sends bytes as they are; posts a request; writes
 * into its memory; kicks by an event, or cuts its memory off. */
void client_sends(void);
void client_babbles(void);
void client_posts(void);
void client_scribbles(void);
void client_kicks(void);

#endif
