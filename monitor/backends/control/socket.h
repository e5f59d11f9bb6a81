/* The sockets at which clients come. */
#ifndef CONTROL_SOCKET_H
#define CONTROL_SOCKET_H
#include "control.h"

/* Whether the socket that was handed over is the one that these options say: it is at its path,
 * with its mode and its group, or another user has made it there. */
bool socket_is_kept(const struct control_options *options);

/* Makes a listening socket with its mode and its group; -1 where it can't, with errno. */
int socket_listen(const struct control_options *options);

/* Removes the socket of an earlier host, and nothing else. */
void socket_remove(const char *path);

#endif
