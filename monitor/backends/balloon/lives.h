/* The lives of a guest's drivers: each begins with nothing in the balloon, which has to be lent
 * before. */
#ifndef LIVES_H
#define LIVES_H
#include <stdbool.h>
#include <stdint.h>

struct backend;

/* Whether the balloon, which is empty already or isn't, may be empty from now on. */
bool life_may_empty(struct backend *backend, bool is_empty);

/* A driver has ended, and none continues where it was: there is nothing in the balloon any longer.
 * False where that may not be. */
bool life_ends(struct backend *backend);

/* The queue of inflates restarts at this index; false where it can't, which is said. */
bool life_begins(struct backend *backend, uint16_t position);

#endif
