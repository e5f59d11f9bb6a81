#include "config_text.h"

#include "../base/numbers.h"

#include <inttypes.h>
#include <stdio.h>
#include <string.h>

static const char *level_text(uint32_t level)
{
    static const char *const words[] = {"error", "warning", "notice", "info", "debug"};
    uint32_t number;
    for (unsigned i = 0; i < sizeof words / sizeof words[0]; i++)
        if (config_level(words[i], &number) && number == level)
            return words[i];
    return "info";
}

const char *key_text(const struct key *key, const void *whole, char text[MOST_KEY_TEXT])
{
    const void *at = (const char *)whole + key->at;
    switch (key->kind) {
    case WORD_PATH:
    case WORD_GROUP:
        return at;
    case WORD_BOOLEAN:
        return *(const bool *)at ? "yes" : "no";
    case WORD_LIMIT:
        return limit_words(at, text);
    case WORD_LEVEL:
        return level_text(*(const uint32_t *)at);
    default:
        break;
    }
    uint32_t number = *(const uint32_t *)at;
    bool is_size =
        key->kind == WORD_SIZE || key->kind == WORD_SIZE_OR_NONE || key->kind == WORD_SIZE_LIMIT;
    if (number == UINT32_MAX && (key->kind == WORD_SIZE_LIMIT || key->kind == WORD_USER))
        return "none";
    if (is_size)
        size_text(number, text);
    else
        snprintf(text, MOST_KEY_TEXT, key->kind == WORD_MODE ? "0%03" PRIo32 : "%" PRIu32, number);
    return text;
}

static void put_key(FILE *to, const struct key *key, const void *whole)
{
    char text[MOST_KEY_TEXT];
    fprintf(to, "%s = %s\n", key->name, key_text(key, whole, text));
}

static void put_guest(FILE *to, const struct config_guest *guest)
{
    fprintf(to, "\n[guest %s]\n", guest->name);
    if (guest->removed)
        fputs("removed = yes\n", to);
    for (unsigned i = 0; i < GUEST_KEYS; i++)
        if (config_says(guest->says, i))
            put_key(to, &guest_keys[i], guest);
}

char *config_text(const struct config *config)
{
    char *text = NULL;
    size_t length;
    FILE *to = open_memstream(&text, &length);
    const char *section = "";
    for (unsigned i = 0; i < CONFIG_KEYS && to; i++) {
        const struct key *key = &config_keys[i];
        if (!config_says(config->says, i))
            continue;
        if (strcmp(section, key->section) != 0)
            fprintf(to, "%s[%s]\n", *section ? "\n" : "", key->section);
        section = key->section;
        put_key(to, key, config);
    }
    for (unsigned i = 0; i < config->count && to; i++)
        put_guest(to, &config->guests[i]);
    if (to)
        fclose(to);
    return text;
}
