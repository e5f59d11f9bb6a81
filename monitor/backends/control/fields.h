/* The fields of a request: which there may be, and what may be in them. */
#ifndef CONTROL_FIELDS_H
#define CONTROL_FIELDS_H
#include <jansson.h>
#include <stdbool.h>
#include <stdint.h>

#include "../lender/limit.h"
#include "../lender/owner.h"

/* A name; bytes that are whole pages; the same or null, for no limit; a whole number; true or
 * false; words of the kernel's limit, or null for none; a user's name or number, or null for
 * any. */
enum field_kind {
    FIELD_NAME,
    FIELD_BYTES,
    FIELD_LIMIT,
    FIELD_NUMBER,
    FIELD_BOOLEAN,
    FIELD_KERNEL_LIMIT,
    FIELD_USER
};

/* Whether a request, or a field of it, changes the host or shows it. */
enum effect { SHOWS, CHANGES };

enum { MOST_FIELDS = 14, PAGE_BYTES = 4096 };

struct field {
    const char *name; /* NULL: no field */
    enum field_kind kind;
    bool needed;
    enum effect effect;
    uint64_t least, most; /* of a number */
};

/* NULL where a request has the fields that it needs, no unknown ones, and in each what may be
 * there; else the answer that refuses it. */
json_t *fields_refusal(const json_t *request, const struct field fields[MOST_FIELDS]);

/* The first of these fields that a request has and that changes the host; NULL: none. */
const char *field_that_changes(const json_t *request, const struct field fields[MOST_FIELDS]);

/* Whether a request has a field. */
bool field_is_there(const json_t *request, const char *name);

/* What is in a field that is there: a name; pages of FIELD_BYTES and FIELD_LIMIT, where null is
 * UINT32_MAX; a number. */
const char *field_name(const json_t *request, const char *name);
uint32_t field_pages(const json_t *request, const char *name);
uint64_t field_number(const json_t *request, const char *name);
struct guest_limit field_kernel_limit(const json_t *request, const char *name);
uint32_t field_user(const json_t *request, const char *name);

#endif
