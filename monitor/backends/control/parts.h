/* Parts of an answer. One that can't be made is NULL, and so is each whole that it belongs to. */
#ifndef CONTROL_PARTS_H
#define CONTROL_PARTS_H
#include <jansson.h>
#include <stdint.h>

/* Seconds since 1970 of a moment by the monotonic clock, in milliseconds. */
double part_time(int64_t milliseconds);

/* Pages, as bytes. */
json_t *part_bytes(uint64_t pages);

/* The array with one more part, and the object with one of this name, or with all those of another
 * one. Each takes what it is called with. */
json_t *part_append(json_t *array, json_t *part);
json_t *part_set(json_t *object, const char *name, json_t *part);
json_t *part_update(json_t *object, json_t *others);

#endif
