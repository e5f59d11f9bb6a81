#include "status.h"

#include "answers.h"
#include "client.h"
#include "differs.h"
#include "parts.h"

#include "../base/loop.h"
#include "../settings/settings.h"

#include <stdlib.h>

/* Statuses take one part of the time in STATUS_PARTS, and may take that of PAID_AHEAD seconds at
 * once. */
enum { STATUS_PARTS = 20, PAID_AHEAD = 1 };

/* Whether they are to be made again: nothing was, they are old, or it is paid for. */
static bool is_due(const struct made_status *status)
{
    return !status->text || status->is_old || status->paid_until <= loop_seconds() + PAID_AHEAD;
}

static void drop(struct status_parts *parts)
{
    if (parts->out)
        fclose(parts->out);
    free(parts->text);
    free(parts->guests);
    *parts = (struct status_parts){0};
}

void status_forget(struct made_status *status)
{
    drop(&status->parts);
    free(status->text);
    *status = (struct made_status){0};
}

static void put_words(struct status_parts *parts, const char *words)
{
    parts->fails |= fputs(words, parts->out) < 0;
}

/* Puts an object after the text so far. */
static void put(struct status_parts *parts, json_t *object)
{
    size_t length;
    char *line = client_text(object, NULL, &length);
    parts->fails |= !line || fwrite(line, 1, length - 1, parts->out) < length - 1;
    json_decref(object);
    free(line);
}

static json_t *fields_of_host(const struct control *control, const struct host *host)
{
    const struct settings *settings = control->settings;
    json_t *its = part_set(answer_host(control, host), "differs", answer_differs(settings));
    return part_set(its, "state", json_pack("s?", settings->changes.path));
}

/* Sees all guests, and puts what there is of the host. */
static void begin(struct control *control, const struct host *host)
{
    struct status_parts *parts = &control->status.parts;
    struct host_view view;
    host_see(host, &view);
    drop(parts);
    control->status.is_old = false;
    parts->guests = calloc(view.guests + 1, sizeof parts->guests[0]);
    parts->out = parts->guests ? open_memstream(&parts->text, &parts->length) : NULL;
    if (!parts->out)
        return;
    for (; parts->count < view.guests; parts->count++)
        host_see_guest(host, parts->count, &parts->guests[parts->count]);
    put_words(parts, "\"host\":");
    put(parts, fields_of_host(control, host));
    put_words(parts, ",\"guests\":[");
}

/* Puts one guest after the other, until a call's time is spent. */
static void put_guests(struct status_parts *parts)
{
    double until = loop_processor_seconds() + CONTROL_SECONDS;
    bool has_time = true;
    while (!parts->fails && parts->next < parts->count && has_time) {
        if (parts->next > 0)
            put_words(parts, ",");
        put(parts, answer_guest(&parts->guests[parts->next++]));
        has_time = loop_processor_seconds() < until;
    }
}

/* The text of a status that is whole; NULL where there was no memory. */
static char *take_text(struct status_parts *parts)
{
    char *text = NULL;
    put_words(parts, "]}");
    parts->fails |= fclose(parts->out) != 0;
    if (!parts->fails)
        text = parts->text, parts->text = NULL;
    parts->out = NULL;
    drop(parts);
    return text;
}

/* Counts the time of a processor since then. */
static void pay(struct made_status *status, double begun)
{
    double now = loop_seconds(), paid = status->paid_until > now ? status->paid_until : now;
    status->paid_until = paid + (loop_processor_seconds() - begun) * STATUS_PARTS;
}

void status_go_on(struct made_status *status)
{
    struct status_parts *parts = &status->parts;
    double begun = loop_processor_seconds();
    if (!parts->out)
        return;
    put_guests(parts);
    pay(status, begun);
    if (!parts->fails && parts->next < parts->count)
        return;
    free(status->text);
    status->text = take_text(parts);
}

bool status_ask(struct control *control, const struct host *host, bool waited)
{
    struct made_status *status = &control->status;
    double begun = loop_processor_seconds();
    bool serves = status->parts.out || (waited && status->text) || !is_due(status);
    if (serves && !status->is_old)
        return !status->parts.out;
    begin(control, host);
    pay(status, begun);
    status_go_on(status);
    return !status->parts.out;
}
