#ifndef TAGS_H
#define TAGS_H
#include <stdbool.h>
#include <stdint.h>

/* The name of a tag of statistics (VIRTIO 1.1, 5.5.6.3, and Linux); `other` where it has none. */
const char *tag_name(uint16_t tag);

/* Whether it has one. */
bool tag_is_known(uint16_t tag);

#endif
