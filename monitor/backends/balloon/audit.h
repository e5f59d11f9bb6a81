/* What a build for tests looks at, besides: whether each used element is what was taken, and
 * whether only pages that the guest named became holes. Its code is apart from what it looks at. In
 * the product none of it is there. */
#ifndef AUDIT_H
#define AUDIT_H
#include "backend.h"

#ifdef BALLOON_AUDIT

/* Around each service of a queue, and around a question for statistics. */
void audit_before(struct backend *backend, unsigned number);
void audit_after(struct backend *backend, unsigned number);

/* The pages of a request or a report are told; then, after their discarding, it is used next. */
void audit_pages(struct backend *backend, uint32_t kind);
void audit_use(void);

/* Obeys the lines `snapshot` and `audit`; false where it is another line. */
bool audit_line(struct backend *backend, const char *line);

#else

static inline void audit_before(struct backend *backend, unsigned number)
{
    (void)backend, (void)number;
}

static inline void audit_after(struct backend *backend, unsigned number)
{
    (void)backend, (void)number;
}

static inline void audit_pages(struct backend *backend, uint32_t kind)
{
    (void)backend, (void)kind;
}

static inline bool audit_line(struct backend *backend, const char *line)
{
    (void)backend, (void)line;
    return false;
}

#endif
#endif
