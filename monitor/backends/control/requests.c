#include "requests.h"

#include "answers.h"
#include "asked.h"
#include "events.h"
#include "fields.h"
#include "parts.h"
#include "status.h"

#include "../settings/settings.h"

#include <stdarg.h>
#include <stdio.h>
#include <string.h>

/* Decisions of one answer, and bytes of what is said of a refusal. */
enum { MOST_DECISIONS_OF_ANSWER = 16, MOST_REFUSAL = 256 };

struct kind {
    const char *name;
    enum effect effect; /* SHOWS: its fields may yet change the host */
    json_t *(*answer)(const struct asked *asked);
    struct field fields[MOST_FIELDS];
};

json_t *request_refusal(const char *code, const char *field, const char *format, ...)
{
    char words[MOST_REFUSAL];
    va_list parts;
    va_start(parts, format);
    vsnprintf(words, sizeof words, format, parts);
    va_end(parts);
    json_t *text = json_string(words);
    json_t *error = json_pack("{s:s, s:o}", "code", code, "text",
                              text ? text : json_string("words that are no UTF-8"));
    if (field)
        json_object_set_new(error, "field", json_string(field));
    return json_pack("{s:b, s:o}", "ok", 0, "error", error);
}

static json_t *status(const struct asked *asked)
{
    struct control_client *client = asked->client;
    client->asks_again = !status_ask(asked->control, asked->host, client->asks_again);
    client->rest = client->asks_again ? NULL : asked->control->status.text;
    return client->rest ? json_pack("{s:b}", "ok", 1) : NULL;
}

static json_t *decisions(const struct asked *asked)
{
    uint64_t limit = MOST_DECISIONS_OF_ANSWER;
    if (field_is_there(asked->fields, "limit"))
        limit = field_number(asked->fields, "limit");
    return answer_log(asked->host, field_number(asked->fields, "since"), limit);
}

static json_t *follow(const struct asked *asked)
{
    asked->client->follows = events_next(asked->control);
    return json_pack("{s:b, s:I}", "ok", 1, "next", (json_int_t)asked->client->follows);
}

/* clang-format off */
#define LASTS {"until_restart", FIELD_BOOLEAN, .effect = SHOWS}
#define TERMS \
    {"least", FIELD_BYTES, .effect = CHANGES}, {"most", FIELD_LIMIT, .effect = CHANGES}, \
    {"strict", FIELD_BOOLEAN, .effect = CHANGES}, \
    {"priority", FIELD_NUMBER, .effect = CHANGES, .least = 0, .most = UINT32_MAX}, \
    {"weight", FIELD_NUMBER, .effect = CHANGES, .least = 1, .most = UINT32_MAX}, \
    {"overhead", FIELD_BYTES, .effect = CHANGES}, \
    {"limit", FIELD_KERNEL_LIMIT, .effect = CHANGES}, {"user", FIELD_USER, .effect = CHANGES}, \
    {"memory", FIELD_LIMIT, .effect = CHANGES}, {"start", FIELD_LIMIT, .effect = CHANGES}, LASTS
#define NAMED {"name", FIELD_NAME, .needed = true}

static const struct kind kinds[] = {
    {"status", SHOWS, status, {{0}}},
    {"guest", SHOWS, answer_to_guest,
     {NAMED, TERMS, {"target", FIELD_BYTES, .effect = CHANGES}}},
    {"add", CHANGES, answer_to_add, {NAMED, TERMS}},
    {"remove", CHANGES, answer_to_remove,
     {NAMED, LASTS, {"force", FIELD_BOOLEAN, .effect = SHOWS}}},
    {"upgrade", CHANGES, answer_to_upgrade, {{0}}},
    {"reload", CHANGES, answer_to_reload, {{0}}},
    {"renew", CHANGES, answer_to_renew, {NAMED}},
    {"budget", SHOWS, answer_to_budget, {{"bytes", FIELD_BYTES, .effect = CHANGES}, LASTS}},
    {"floor", SHOWS, answer_to_floor, {{"bytes", FIELD_BYTES, .effect = CHANGES}, LASTS}},
    {"config", SHOWS, answer_to_config, {{0}}},
    {"log", SHOWS, decisions,
     {{"since", FIELD_NUMBER, .most = INT64_MAX},
      {"limit", FIELD_NUMBER, .least = 1, .most = MOST_DECISIONS_OF_ANSWER}}},
    {"changes", SHOWS, answer_to_changes,
     {{"since", FIELD_NUMBER, .most = INT64_MAX},
      {"limit", FIELD_NUMBER, .least = 1, .most = MOST_NOTES_OF_ANSWER}}},
    {"events", SHOWS, follow, {{0}}},
};
/* clang-format on */

/* Refuses what would change the host, at a socket where one may look alone; else NULL. */
static json_t *change_refusal(const struct asked *asked, const struct kind *kind)
{
    if (asked->client->rights == MAY_CHANGE)
        return NULL;
    const char *field =
        kind->effect == CHANGES ? "request" : field_that_changes(asked->fields, kind->fields);
    return field ? request_refusal("read-only", field,
                                   "%s changes the host, which this socket only shows",
                                   kind->effect == CHANGES ? kind->name : field)
                 : NULL;
}

/* Refuses a version that isn't spoken, and an id that is neither a string nor a whole number; else
 * NULL. */
static json_t *common_refusal(const json_t *fields)
{
    const json_t *version = json_object_get(fields, "version"), *id = json_object_get(fields, "id");
    if (!version)
        return request_refusal("missing-field", "version",
                               "a request says the version of the protocol: %d", CONTROL_VERSION);
    if (!json_is_integer(version) || json_integer_value(version) != CONTROL_VERSION)
        return request_refusal("version", "version", "version %d is spoken, and no other",
                               CONTROL_VERSION);
    if (id && !json_is_string(id) && !json_is_integer(id))
        return request_refusal("bad-field", "id", "a string or a whole number");
    const json_t *by = json_object_get(fields, "by");
    if (by && (!json_is_string(by) || json_string_length(by) >= MOST_BY))
        return request_refusal("bad-field", "by", "a name of %d bytes at most", MOST_BY - 1);
    return NULL;
}

/* Answers a request, and notes what that has changed. */
static json_t *answer_and_note(struct asked *asked, const struct kind *kind)
{
    static struct config before;
    const char *by = json_string_value(json_object_get(asked->fields, "by"));
    bool changes = kind->effect == CHANGES || field_that_changes(asked->fields, kind->fields);
    if (!changes)
        return kind->answer(asked);
    snprintf(asked->author.by, sizeof asked->author.by, "%s", by ? by : "");
    settings_see(asked->control->settings, &before);
    json_t *answer = kind->answer(asked);
    settings_note(asked->control->settings, &before, &asked->author);
    return answer;
}

/* Answers an object. */
static json_t *answer(struct asked *asked)
{
    json_t *refusal = common_refusal(asked->fields);
    const json_t *name = json_object_get(asked->fields, "request");
    if (!refusal && !name)
        refusal = request_refusal("missing-field", "request", "a request says what is asked for");
    if (!refusal && !json_is_string(name))
        refusal = request_refusal("bad-field", "request", "a string");
    for (unsigned i = 0; i < sizeof kinds / sizeof kinds[0] && !refusal; i++) {
        if (strcmp(kinds[i].name, json_string_value(name)) != 0)
            continue;
        refusal = change_refusal(asked, &kinds[i]);
        refusal = refusal ? refusal : fields_refusal(asked->fields, kinds[i].fields);
        asked->control->has_acted =
            !refusal && asked->client->rights == MAY_CHANGE && kinds[i].answer != status;
        asked->control->status.is_old |= asked->control->has_acted;
        return refusal ? refusal : answer_and_note(asked, &kinds[i]);
    }
    if (!refusal)
        refusal = request_refusal("unknown-request", "request", "no request is named so");
    return refusal;
}

json_t *request_headed(const json_t *fields, json_t *answer)
{
    json_t *id = json_object_get(fields, "id"),
           *whole = json_pack("{s:i}", "version", CONTROL_VERSION);
    if (json_is_string(id) || json_is_integer(id))
        json_object_set(whole, "id", id);
    return part_update(
        whole,
        answer ? answer : request_refusal("internal", NULL, "the host couldn't make its answer"));
}

json_t *request_answer(struct control *control, struct control_client *client, struct host *host,
                       const char *line, size_t length)
{
    json_error_t fault;
    json_t *fields = json_loadb(line, length, JSON_REJECT_DUPLICATES, &fault);
    pid_t process = client->process > 0 ? client->process : NO_NUMBER;
    struct asked asked = {control, client, host, fields, {client->user, process, ""}};
    json_t *reply;
    if (!fields)
        reply = request_refusal("invalid-json", NULL, "no JSON: column %d: %s", fault.column,
                                fault.text);
    else if (!json_is_object(fields))
        reply = request_refusal("invalid-json", NULL, "JSON, but no object");
    else
        reply = answer(&asked);
    reply = request_headed(fields, reply);
    json_decref(fields);
    if (!client->asks_again)
        return reply;
    json_decref(reply);
    return NULL;
}
