/* What a service manager is told (sd_notify), and the sockets that it hands over. Without one,
 * nothing happens. */
#ifndef NOTIFY_H
#define NOTIFY_H
#include <stdint.h>

/* Milliseconds after which the service manager wants a word (half of its watchdog's time); 0: it
 * wants none. */
int64_t notify_every(void);

/* It is ready; it reloads its configuration; it ends; a word for its watchdog, with a line about
 * what there is. */
void notify_ready(void);
void notify_reloads(void);
void notify_ends(void);
void notify_lives(const char *status);

/* Keeps a socket for the next process of this service, by a name; and no longer those that were
 * kept by it. */
void notify_keep(const char *name, int file);
void notify_forget(const char *name);

/* A listening socket of this name, that was handed over by the service manager or kept by the
 * process before; -1: none. */
int notify_socket(const char *name);

/* A program that this process becomes finds these sockets by these names, as notify_socket does: at
 * most four. */
void notify_hand_on(const int *files, const char *const *names, unsigned count);

#endif
