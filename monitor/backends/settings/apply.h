/* A configuration and a host: what one says of the other. */
#ifndef APPLY_H
#define APPLY_H
#include "config_keys.h"

/* Whether the host takes the terms of all guests of a configuration, and its sizes; else says by
 * the file's name what it doesn't. */
bool apply_fits(const char *file, const struct config *config, const struct host *host);

/* Sets what a configuration says of the host's frames. */
void apply_sizes(const char *file, struct host *host, const struct config *config);

/* Takes guests of an earlier lender away, as far as those of a configuration have no room beside
 * them: whom that doesn't name, and of whom nobody is there. */
void apply_room(const struct config *config, struct host *host);

/* Adds the guests that the host hasn't, and gives the others their terms; one that isn't named
 * stays. What the host doesn't take is said: false where the file itself has that. */
bool apply_guests(const char *file, const struct config *config, const struct config *files,
                  struct host *host);

/* What there is of a host, in a configuration that says all of it: its sizes and its guests. */
void apply_see(const struct host *host, struct config *config);

#endif
