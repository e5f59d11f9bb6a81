#include "parts.h"

#include <time.h>

#include "fields.h"

static double seconds_of(clockid_t clock)
{
    struct timespec time;
    clock_gettime(clock, &time);
    return (double)time.tv_sec + (double)time.tv_nsec / 1e9;
}

double part_time(int64_t milliseconds)
{
    return seconds_of(CLOCK_REALTIME) - seconds_of(CLOCK_MONOTONIC) + (double)milliseconds / 1000;
}

json_t *part_bytes(uint64_t pages)
{
    uint64_t bytes = pages * PAGE_BYTES;
    return json_integer((json_int_t)bytes);
}

/* A whole whose last change was answered by this code. */
static json_t *whole(json_t *it, int code)
{
    if (code == 0)
        return it;
    json_decref(it);
    return NULL;
}

json_t *part_append(json_t *array, json_t *part)
{
    return whole(array, json_array_append_new(array, part));
}

json_t *part_set(json_t *object, const char *name, json_t *part)
{
    return whole(object, json_object_set_new(object, name, part));
}

json_t *part_update(json_t *object, json_t *others)
{
    int code = json_object_update(object, others);
    json_decref(others);
    return whole(object, code);
}
