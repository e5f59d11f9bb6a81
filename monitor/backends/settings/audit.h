/* Who has changed what of a host: the last changes are kept, each is said as it is made. */
#ifndef AUDIT_OF_CHANGES_H
#define AUDIT_OF_CHANGES_H
#include "config_text.h"

#include <sys/types.h>

/* Changes that are kept; bytes of the name that a client gives its user, with their end. */
enum { MOST_NOTES = 256, MOST_BY = 65 };

/* Of a process that has no number in the lender's namespace of processes. */
enum { NO_NUMBER = -1 };

/* Who asks: by the kernel's word, and by a name of its own. */
struct author {
    uid_t user;
    pid_t process; /* 0: a signal has come; NO_NUMBER: one of another namespace */
    char by[MOST_BY];
};

/* A key of the host's or of a guest's that has changed; of a guest that came or went `added` or
 * `removed`. */
struct note {
    int64_t at; /* by the monotonic clock, in milliseconds */
    struct author author;
    char guest[MOST_CONFIG_NAME]; /* empty: the host's */
    const char *key;
    char was[MOST_KEY_TEXT], is[MOST_KEY_TEXT];
};

struct audit {
    uint64_t count; /* note n has its place at n % MOST_NOTES */
    struct note notes[MOST_NOTES];
};

/* Compares what there is with what there was, notes what differs and says it. */
void audit_compare(struct audit *audit, const struct config *before, const struct config *after,
                   const struct author *author);

/* Notes one thing more, of a guest or, with an empty name, of the host. */
void audit_note(struct audit *audit, const struct author *author, const char *guest,
                const char *key, const char *was, const char *is);

/* The number of the first note that is kept. */
uint64_t audit_begin(const struct audit *audit);

#endif
