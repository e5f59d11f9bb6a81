/* What the host has, as JSON: memory in bytes, time in seconds. Each is NULL where there is no
 * memory for it. */
#ifndef CONTROL_ANSWERS_H
#define CONTROL_ANSWERS_H
#include "control.h"

#include <jansson.h>

/* All of the host together, and what its control sockets count. */
json_t *answer_host(const struct control *control, const struct host *host);

/* A guest. */
json_t *answer_guest(const struct guest_view *guest);

/* Decisions from this number on, at most `limit`: `decisions`; `next`, where to go on; `lost`, how
 * many of them aren't kept any longer. */
json_t *answer_log(const struct host *host, uint64_t since, uint64_t limit);

/* The decision of this number; NULL where it isn't kept. */
json_t *answer_decision(const struct host *host, uint64_t number);

#endif
