/* The lines of the events that a look has found, for clients that follow the host: one write to
 * each, in as many turns as that takes. */
#ifndef CONTROL_FOLLOWERS_H
#define CONTROL_FOLLOWERS_H
#include "control.h"

#include <jansson.h>

/* Adds an event by its number. Takes its line, which is NULL where there was no memory for it: the
 * followers are dropped then, after the lines before it. */
void followers_add(struct followers *followers, uint64_t number, json_t *line);

/* Sends the lines to one follower after another until this time, to some at least; whether each has
 * had them. */
bool followers_send(struct control *control, double until);

/* Forgets the lines. */
void followers_forget(struct followers *followers);

#endif
