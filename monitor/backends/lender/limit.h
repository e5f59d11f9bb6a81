/* A limit that the kernel enforces on what a guest holds: of a cgroup, or of a mount of tmpfs that
 * has its memory's file. */
#ifndef LIMIT_H
#define LIMIT_H
#include <stdbool.h>
#include <stddef.h>
#include <stdint.h>

enum limit_kind { LIMIT_NONE, LIMIT_CGROUP, LIMIT_TMPFS };

/* Bytes of a path and of a limit's words, with their ends. */
enum { MOST_LIMIT_PATH = 152, MOST_LIMIT_WORDS = MOST_LIMIT_PATH + 8 };

struct guest_limit {
    enum limit_kind kind;
    char path[MOST_LIMIT_PATH];
};

/* Reads `none`, `cgroup:PATH` or `tmpfs:MOUNT`; NULL, or what should be there: then nothing has
 * changed. */
const char *limit_read(const char *words, struct guest_limit *limit);

/* The same words again. */
const char *limit_words(const struct guest_limit *limit, char words[MOST_LIMIT_WORDS]);

/* Whether the kernel has such a limit at this path, by its table of mounts: NULL, or why not. A
 * cgroup may still be to come. */
const char *limit_fault(const struct guest_limit *limit);

/* Whether two limits are one by their paths, or one cgroup is within the other; and whether the
 * kernel has one memory at both paths, which have to be what limit_fault looks for. */
bool limits_meet(const struct guest_limit *one, const struct guest_limit *other);
bool limits_are_one(const struct guest_limit *one, const struct guest_limit *other);

/* Whether two guests can't have these: either of both. */
bool limits_collide(const struct guest_limit *one, const struct guest_limit *other);

/* What a writer is asked, and what it answers with the same number: 0 or an errno, and the kernel's
 * words where it has some. */
struct limit_request {
    uint64_t number, bytes;
    struct guest_limit limit;
};
struct limit_outcome {
    uint64_t number;
    int32_t code;
    char words[96];
};

/* The file that a writer locks before its first write, and until it ends. */
enum { LIMIT_LOCK = 3 };

/* Serves requests of a socket until its other end is closed: the process of one guest's limit,
 * which alone waits for the kernel, and for the writer of an earlier lender, which may outlive
 * that. */
int limit_writer_run(int channel);

#endif
