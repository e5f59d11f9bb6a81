#include "answers.h"
#include "asked.h"
#include "fields.h"
#include "notes.h"
#include "parts.h"
#include "requests.h"
#include "vb.h"

#include "../base/numbers.h"
#include "../settings/settings.h"

#include <stdlib.h>
#include <string.h>

/* What a call of the host's answered: done, or why not. */
static json_t *outcome(const char *fault)
{
    return fault ? request_refusal("refused", NULL, "%s", fault) : json_pack("{s:b}", "ok", 1);
}

/* Sees the guest that a request names; its number, or -1: none is named so. */
static int see_named(const struct asked *asked, struct guest_view *view)
{
    int number = host_find(asked->host, field_name(asked->fields, "name"));
    if (number >= 0)
        host_see_guest(asked->host, (unsigned)number, view);
    return number;
}

static json_t *no_guest(const struct asked *asked)
{
    return request_refusal("no-guest", "name", "no guest is named %s",
                           field_name(asked->fields, "name"));
}

/* The terms that a request asks for, where the others stay as they are. */
static struct guest_terms terms_of(const json_t *fields, struct guest_terms terms)
{
    if (field_is_there(fields, "least"))
        terms.least = field_pages(fields, "least");
    if (field_is_there(fields, "most"))
        terms.most = field_pages(fields, "most");
    if (field_is_there(fields, "priority"))
        terms.priority = (uint32_t)field_number(fields, "priority");
    if (field_is_there(fields, "weight"))
        terms.weight = (uint32_t)field_number(fields, "weight");
    if (field_is_there(fields, "strict"))
        terms.strict = field_number(fields, "strict");
    if (field_is_there(fields, "overhead"))
        terms.overhead = field_pages(fields, "overhead");
    if (field_is_there(fields, "limit"))
        terms.limit = field_kernel_limit(fields, "limit");
    if (field_is_there(fields, "user"))
        terms.user = field_user(fields, "user");
    if (field_is_there(fields, "memory"))
        terms.memory = field_pages(fields, "memory");
    if (field_is_there(fields, "start"))
        terms.start = field_pages(fields, "start");
    return terms;
}

/* The terms that a request names, a bit for each. */
static uint32_t asked_terms(const json_t *fields)
{
    uint32_t asked = 0;
    for (unsigned i = 0; i < GUEST_KEYS; i++)
        if (field_is_there(fields, guest_keys[i].name))
            asked |= UINT32_C(1) << i;
    return asked;
}

static struct changes *changes_of(const struct asked *asked)
{
    return &asked->control->settings->changes;
}

static const struct config *file_of(const struct asked *asked)
{
    return &asked->control->settings->config;
}

/* For how long a change is to last. */
static enum lasting how_long(const struct asked *asked)
{
    return changes_last(changes_of(asked), field_is_there(asked->fields, "until_restart") &&
                                               field_number(asked->fields, "until_restart"));
}

/* The answer to a change, which says whether it lasts. */
static json_t *lasting_answer(const struct asked *asked, json_t *answer)
{
    return part_set(answer, "lasts", json_boolean(how_long(asked) == FOR_GOOD));
}

/* Keeps the terms of a guest that a request names; NULL, or why it can't. */
static const char *keep_terms(const struct asked *asked, const char *name,
                              const struct guest_terms *terms, bool is_new)
{
    struct config_guest guest = {.terms = *terms, .says = asked_terms(asked->fields)};
    strcpy(guest.name, name);
    return changes_keep_terms(changes_of(asked), file_of(asked), how_long(asked), &guest, is_new);
}

/* What was kept is so no longer, as the host didn't do it. */
static const char *unless_done(const struct asked *asked, const char *fault)
{
    if (fault)
        changes_undo(changes_of(asked), how_long(asked));
    return fault;
}

/* Notes that a target was set by hand. */
static void note_target(const struct asked *asked, const struct guest_view *guest)
{
    char was[MOST_KEY_TEXT], is[MOST_KEY_TEXT];
    size_text(guest->target, was);
    size_text(field_pages(asked->fields, "target"), is);
    audit_note(&asked->control->settings->audit, &asked->author, guest->name, "target", was, is);
}

/* Changes what a request asks for of a guest; NULL, or why not: then it is as it was, and nothing
 * is decided again. */
static const char *change(const struct asked *asked, const struct guest_view *guest)
{
    const json_t *fields = asked->fields;
    bool has_terms = asked_terms(fields) != 0, has_target = field_is_there(fields, "target");
    struct guest_terms terms = terms_of(fields, guest->terms);
    char name[MOST_CONFIG_NAME];
    snprintf(name, sizeof name, "%s", guest->name);
    const char *fault = has_terms ? host_refuses(asked->host, name, &terms) : NULL;
    if (!fault && has_target)
        fault = host_refuses_target(asked->host, name);
    if (!fault && has_terms)
        fault = keep_terms(asked, name, &terms, false);
    if (!fault && has_terms)
        fault = unless_done(asked, host_set_terms(asked->host, name, &terms));
    if (fault || !has_target)
        return fault;
    note_target(asked, guest);
    return host_set_target(asked->host, name, field_pages(fields, "target"));
}

/* The guest of this number, after what was done to it. */
static json_t *guest_answer(const struct asked *asked, int number)
{
    struct guest_view guest;
    host_see_guest(asked->host, (unsigned)number, &guest);
    return json_pack("{s:b, s:o}", "ok", 1, "guest", answer_guest(&guest));
}

json_t *answer_to_guest(const struct asked *asked)
{
    struct guest_view view;
    int number = see_named(asked, &view);
    if (number < 0)
        return no_guest(asked);
    const char *fault = change(asked, &view);
    json_t *answer = fault ? outcome(fault) : guest_answer(asked, number);
    return fault || !asked_terms(asked->fields) ? answer : lasting_answer(asked, answer);
}

json_t *answer_to_add(const struct asked *asked)
{
    const char *name = field_name(asked->fields, "name");
    struct guest_terms terms = terms_of(asked->fields, host_usual_terms(asked->host));
    if (host_find(asked->host, name) >= 0)
        return request_refusal("guest-exists", "name", "a guest is named %s already", name);
    const char *fault = host_cannot_add(asked->host, name, &terms);
    fault = fault ? fault : keep_terms(asked, name, &terms, true);
    if (!fault)
        fault = unless_done(asked, host_add(asked->host, name, &terms));
    return fault ? outcome(fault)
                 : lasting_answer(asked, guest_answer(asked, host_find(asked->host, name)));
}

json_t *answer_to_remove(const struct asked *asked)
{
    struct guest_view view;
    int number = see_named(asked, &view);
    if (number < 0)
        return no_guest(asked);
    bool at_work = view.state != GUEST_ABSENT && view.state != GUEST_LEAVING;
    if (at_work &&
        !(field_is_there(asked->fields, "force") && field_number(asked->fields, "force")))
        return request_refusal("at-work", "name",
                               "%s is at work: --force ends its service, and its memory lives on "
                               "until its VMM closes it",
                               view.name);
    const char *fault =
        changes_keep_removal(changes_of(asked), file_of(asked), how_long(asked), view.name);
    if (!fault)
        fault = unless_done(asked, host_remove(asked->host, view.name));
    json_t *answer = fault ? outcome(fault) : lasting_answer(asked, outcome(NULL));
    return fault ? answer : part_set(answer, "lives_on", json_boolean(at_work));
}

json_t *answer_to_upgrade(const struct asked *asked)
{
    const char *fault = host_upgrade(asked->host);
    if (!fault)
        audit_note(&asked->control->settings->audit, &asked->author, "", "program", VB_VERSION,
                   "upgraded");
    return outcome(fault);
}

json_t *answer_to_reload(const struct asked *asked)
{
    return outcome(settings_reload(asked->control->settings));
}

json_t *answer_to_renew(const struct asked *asked)
{
    struct guest_view view;
    int number = see_named(asked, &view);
    if (number < 0)
        return no_guest(asked);
    const char *fault = host_renew(asked->host, view.name);
    if (!fault)
        audit_note(&asked->control->settings->audit, &asked->author, view.name, "process",
                   view.version, "renewed");
    return fault ? outcome(fault) : guest_answer(asked, number);
}

/* Sets a number of pages of the host's, and keeps it; NULL, or why not. */
static const char *set_pages(const struct asked *asked, enum config_key key)
{
    uint32_t pages = field_pages(asked->fields, "bytes");
    const char *fault = key == KEY_BUDGET ? host_budget_fault(asked->host, pages) : NULL;
    if (!fault)
        fault = changes_keep_size(changes_of(asked), file_of(asked), how_long(asked), key, pages);
    if (!fault)
        fault = unless_done(
            asked, (key == KEY_BUDGET ? host_set_budget : host_set_floor)(asked->host, pages));
    return fault;
}

/* Sets a number of pages of the host's where the request has one, and answers what it is then. */
static json_t *host_pages(const struct asked *asked, const char *name, enum config_key key)
{
    bool sets = field_is_there(asked->fields, "bytes");
    const char *fault = sets ? set_pages(asked, key) : NULL;
    if (fault)
        return outcome(fault);
    struct host_view view;
    host_see(asked->host, &view);
    uint64_t pages = key == KEY_BUDGET ? view.most_budget : view.floor;
    json_t *answer = json_pack("{s:b, s:o}", "ok", 1, name, part_bytes(pages));
    return sets ? lasting_answer(asked, answer) : answer;
}

json_t *answer_to_budget(const struct asked *asked)
{
    if (field_is_there(asked->fields, "bytes") && field_pages(asked->fields, "bytes") == 0)
        return request_refusal("bad-field", "bytes", "a budget of one page or more");
    return host_pages(asked, "budget", KEY_BUDGET);
}

json_t *answer_to_floor(const struct asked *asked)
{
    return host_pages(asked, "floor", KEY_FLOOR);
}

json_t *answer_to_changes(const struct asked *asked)
{
    uint64_t limit = MOST_NOTES_OF_ANSWER;
    if (field_is_there(asked->fields, "limit"))
        limit = field_number(asked->fields, "limit");
    return answer_notes(&asked->control->settings->audit, field_number(asked->fields, "since"),
                        limit);
}

json_t *answer_to_config(const struct asked *asked)
{
    char *text = settings_text(asked->control->settings);
    json_t *answer = text ? json_pack("{s:b, s:s}", "ok", 1, "config", text) : NULL;
    free(text);
    return answer;
}
