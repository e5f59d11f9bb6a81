#include "audit.h"

#include "../base/loop.h"
#include "../base/say.h"

#include <stdio.h>
#include <string.h>

/* Words of a client's, without what a terminal obeys. */
static const char *plain(const char *words, char text[MOST_BY])
{
    snprintf(text, MOST_BY, "%s", words);
    for (char *it = text; *it; it++)
        if (*it < ' ' || *it > '~')
            *it = '?';
    return text;
}

static void say(const struct note *note)
{
    char by[MOST_BY], number[] = "of another namespace",
                      whose[MOST_BY + 2 * MOST_CONFIG_NAME] = "a signal";
    const struct author *author = &note->author;
    if (author->process > 0)
        snprintf(number, sizeof number, "%d", (int)author->process);
    if (author->process != 0)
        snprintf(whose, sizeof whose, "user %u%s%s%s, process %s", (unsigned)author->user,
                 *author->by ? " (" : "", plain(author->by, by), *author->by ? ")" : "", number);
    say_news("changed by %s: %s%s%s%s: %s -> %s", whose, *note->guest ? "guest " : "", note->guest,
             *note->guest ? ": " : "", note->key, note->was, note->is);
}

/* The next note, by its author. */
static struct note *next_note(struct audit *audit, const struct author *author, const char *guest)
{
    struct note *note = &audit->notes[audit->count++ % MOST_NOTES];
    *note = (struct note){.at = loop_now(), .author = *author};
    snprintf(note->guest, sizeof note->guest, "%s", guest);
    return note;
}

void audit_note(struct audit *audit, const struct author *author, const char *guest,
                const char *key, const char *was, const char *is)
{
    struct note *note = next_note(audit, author, guest);
    note->key = key;
    snprintf(note->was, sizeof note->was, "%s", was);
    snprintf(note->is, sizeof note->is, "%s", is);
    say(note);
}

/* Notes the keys of a table by which two things differ, of a guest or of the host. */
static void compare(struct audit *audit, const struct author *author, const char *guest,
                    const struct key *table, unsigned count, const void *before, const void *after)
{
    char was[MOST_KEY_TEXT], is[MOST_KEY_TEXT];
    for (unsigned i = 0; i < count; i++)
        if (!key_is_same(&table[i], before, after))
            audit_note(audit, author, guest, table[i].name, key_text(&table[i], before, was),
                       key_text(&table[i], after, is));
}

/* Notes the guests that there are no longer, in the first, or are new, in the other. */
static void compare_names(struct audit *audit, const struct author *author, const struct config *in,
                          struct config *other, const char *key)
{
    for (unsigned i = 0; i < in->count; i++)
        if (!config_guest_of(other, in->guests[i].name))
            audit_note(audit, author, in->guests[i].name, key, "no", "yes");
}

void audit_compare(struct audit *audit, const struct config *before, const struct config *after,
                   const struct author *author)
{
    static struct config unsaid;
    compare(audit, author, "", config_keys, CONFIG_KEYS, before, after);
    compare_names(audit, author, before, (struct config *)after, "removed");
    compare_names(audit, author, after, (struct config *)before, "added");
    for (unsigned i = 0; i < after->count; i++) {
        const struct config_guest *its = &after->guests[i];
        const struct config_guest *was = config_guest_of((struct config *)before, its->name);
        config_clear(&unsaid);
        was = was ? was : config_new_guest(&unsaid, 1, its->name);
        compare(audit, author, its->name, guest_keys, GUEST_KEYS, was, its);
    }
}

uint64_t audit_begin(const struct audit *audit)
{
    return audit->count > MOST_NOTES ? audit->count - MOST_NOTES : 0;
}
