/* What a client of a control socket may ask, and what it is answered. */
#ifndef CONTROL_REQUESTS_H
#define CONTROL_REQUESTS_H
#include "client.h"

/* The answer to a line: an object with `ok`. NULL where there is no memory for it, nor to say so;
 * and where the client asks again, for an answer that isn't whole yet. */
json_t *request_answer(struct control *control, struct control_client *client, struct host *host,
                       const char *line, size_t length);

/* The answer that refuses whatever was asked: by a code, the field that is wrong (or NULL), and
 * words. */
json_t *request_refusal(const char *code, const char *field, const char *format, ...)
    __attribute__((format(printf, 3, 4)));

/* An answer after the fields that each has: the version, and the id of the request, which may be
 * NULL, where it has one. Takes the answer; NULL is one that couldn't be made, which is said. */
json_t *request_headed(const json_t *request, json_t *answer);

#endif
