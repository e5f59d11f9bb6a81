/* Where a host and its configuration file differ. */
#ifndef CONTROL_DIFFERS_H
#define CONTROL_DIFFERS_H
#include <jansson.h>

struct settings;

/* Each key that the file says otherwise than it is, by words of the file, and whether that lasts;
 * NULL where there is no memory. */
json_t *answer_differs(const struct settings *settings);

#endif
