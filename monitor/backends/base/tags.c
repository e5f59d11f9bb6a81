/* What a guest tells of itself, by name. */
#include "tags.h"

/* The names of the tags (VIRTIO 1.1, 5.5.6.3, and from oom_kills on those of Linux 6.12). */
static const char *const names[] = {
    "swap_in",          "swap_out",     "major_faults",
    "minor_faults",     "free_memory",  "total_memory",
    "available_memory", "disk_caches",  "hugetlb_allocations",
    "hugetlb_failures", "oom_kills",    "alloc_stalls",
    "async_scans",      "direct_scans", "async_reclaims",
    "direct_reclaims",
};

bool tag_is_known(uint16_t tag)
{
    return tag < sizeof names / sizeof names[0];
}

const char *tag_name(uint16_t tag)
{
    return tag_is_known(tag) ? names[tag] : "other";
}
