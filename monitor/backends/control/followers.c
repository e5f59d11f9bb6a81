#include "followers.h"

#include "client.h"

#include "../base/loop.h"

#include <stdlib.h>
#include <string.h>

/* All places, and those after which the time is looked at. */
enum { PLACES = CONTROL_SOCKETS * MOST_CONTROL_CLIENTS, AT_ONCE = 16 };

/* Adds bytes to the lines; false where there is no memory. */
static bool append(struct followers *followers, const char *text, size_t length)
{
    char *lines = realloc(followers->lines, followers->length + length);
    if (!lines)
        return false;
    memcpy(lines + followers->length, text, length);
    followers->lines = lines;
    followers->length += length;
    return true;
}

void followers_add(struct followers *followers, uint64_t number, json_t *line)
{
    size_t length;
    char *text = client_text(line, NULL, &length);
    json_decref(line);
    followers->first = followers->count == 0 ? number : followers->first;
    followers->count++;
    if (!followers->is_cut)
        followers->is_cut = !text || !append(followers, text, length);
    free(text);
}

void followers_forget(struct followers *followers)
{
    free(followers->lines);
    *followers = (struct followers){0};
}

/* Sends the lines to the client of a place, unless it follows later events alone; it is dropped
 * where a line is missing after them. */
static void send_to(struct control *control, unsigned place)
{
    const struct followers *its = &control->followers;
    struct control_client *client =
        control->sockets[place / MOST_CONTROL_CLIENTS].clients[place % MOST_CONTROL_CLIENTS];
    if (!client || client->follows > its->first)
        return;
    if (its->length > 0)
        client_send_text(client, its->lines, its->length);
    if (its->is_cut)
        client_send_text(client, NULL, 0);
}

bool followers_send(struct control *control, double until)
{
    struct followers *its = &control->followers;
    bool has_time = its->count > 0;
    while (its->next < PLACES && has_time) {
        send_to(control, its->next++);
        has_time = its->next % AT_ONCE != 0 || loop_seconds() < until;
    }
    if (its->count > 0 && its->next < PLACES)
        return false;
    followers_forget(its);
    return true;
}
