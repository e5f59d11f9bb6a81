/* Rounds of free page hints (VIRTIO 1.2, 5.5.6.6). */
#ifndef HINTS_H
#define HINTS_H
#include "vb.h"

#include <stdbool.h>

struct backend;

/* Obeys a line of the control pipe that begins, stops or ends a round, with one line on standard
 * output; false where it is another line. */
bool hints_line(struct backend *backend, const char *line);

/* Goes on from a device of another process, which was reset since: where it had these options, the
 * ids of rounds continue after its own, and else from the first. */
void hints_go_on(struct backend *backend, VbBalloon before);

#endif
