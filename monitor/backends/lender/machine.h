/* The host's machine, whose other work leaves more or less memory to the guests: the budget follows
 * that, so that some memory stays available. */
#ifndef MACHINE_H
#define MACHINE_H
#include <stdbool.h>
#include <stdint.h>

struct host;

struct machine {
    uint32_t keep;      /* pages that are to stay available to other work; 0: the budget is what the
                           operator says */
    uint32_t lowest;    /* pages: the budget follows no further down */
    const char *folder; /* where meminfo and pressure/memory are; NULL: /proc */
    int64_t follows_at; /* when it is read next */
    bool fails;         /* it couldn't be read last */
};

/* Takes the first look at the machine, where the budget follows it; false where it can't be read,
 * which is said. */
bool machine_begin(struct host *host);

/* Once a second, in whichever turn that is: the budget follows the machine, and what it leaves is
 * decided on. */
void machine_follow(struct host *host);

#endif
