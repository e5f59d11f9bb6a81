/* A configuration as text, as config_read takes it. */
#ifndef CONFIG_TEXT_H
#define CONFIG_TEXT_H
#include "config_keys.h"

enum { MOST_KEY_TEXT = MOST_LIMIT_WORDS };

/* The value of a key in what it belongs to. */
const char *key_text(const struct key *key, const void *whole, char text[MOST_KEY_TEXT]);

/* Each key that a configuration says, in its section, and guests that were removed: what is to be
 * freed; NULL where there is no memory. */
char *config_text(const struct config *config);

#endif
