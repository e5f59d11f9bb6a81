/* How QEMU's documentation wants a vhost-user backend to be started ("Backend program conventions",
 * docs/interop/vhost-user.rst). */
#ifndef CONVENTIONS_H
#define CONVENTIONS_H
#include <stdbool.h>

/* What --print-capabilities is answered, whatever else the command line has. */
#define CAPABILITIES "{\n  \"type\": \"balloon\"\n}"

/* The word of --fd FD, into an int that is -1: a socket of the client's, or one that listens for
 * it, which neither blocks from now on nor is kept by another program. False where FD is no socket,
 * or is said twice. */
bool read_socket(const char *word, void *at);

/* Whether a socket listens. */
bool socket_listens(int file);

#endif
