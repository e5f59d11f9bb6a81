/* The changes that are kept of a host (audit.h), as answers. */
#ifndef NOTES_H
#define NOTES_H
#include "client.h"

#include "../settings/audit.h"

/* The note of this number, which is kept; NULL where there is no memory. */
json_t *answer_note(const struct audit *audit, uint64_t number);

/* Notes from this number on, at most `limit`, as answer_log has decisions. */
json_t *answer_notes(const struct audit *audit, uint64_t since, uint64_t limit);

#endif
