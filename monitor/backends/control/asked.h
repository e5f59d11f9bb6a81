/* A request whose fields are right, and the answers to those that change the host. */
#ifndef CONTROL_ASKED_H
#define CONTROL_ASKED_H

#include "../lender/view.h"
#include "../settings/audit.h"

enum { MOST_NOTES_OF_ANSWER = 16 };

struct asked {
    struct control *control;
    struct control_client *client;
    struct host *host;
    const json_t *fields;
    struct author author;
};

/* What each of these requests does, and its answer. */
json_t *answer_to_guest(const struct asked *asked);
json_t *answer_to_add(const struct asked *asked);
json_t *answer_to_remove(const struct asked *asked);
json_t *answer_to_budget(const struct asked *asked);
json_t *answer_to_floor(const struct asked *asked);
json_t *answer_to_upgrade(const struct asked *asked);
json_t *answer_to_reload(const struct asked *asked);
json_t *answer_to_renew(const struct asked *asked);
json_t *answer_to_config(const struct asked *asked);
json_t *answer_to_changes(const struct asked *asked);

#endif
