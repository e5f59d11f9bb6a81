/* What has happened on the host, for clients that follow it: each event is what a look finds that
 * the one before didn't. */
#ifndef CONTROL_EVENTS_H
#define CONTROL_EVENTS_H
#include "control.h"

/* Makes room for what is seen at each look; NULL where there is no memory. */
struct events *events_new(void);

/* Frees it; it may be NULL. */
void events_free(struct events *events);

/* The number of the next event. */
uint64_t events_next(const struct control *control);

/* Looks, and tells each follower what has happened since the last look: decisions, guests that came
 * or went, and what each waits for. */
void events_look(struct control *control, const struct host *host);

#endif
