/* Memory of large pages (hugetlbfs): the host has one back once all of it is in the balloon, and
 * holds it whole again from the first page on that leaves the balloon. */
#ifndef LARGE_H
#define LARGE_H
#include <stdint.h>

struct backend;

/* The pages in the balloon whose large page isn't there whole. */
uint64_t large_held(const struct backend *backend);

/* How many frames the deflate that is held takes, which names `pages` pages. */
uint32_t large_asks(const struct backend *backend, uint32_t pages);

#endif
