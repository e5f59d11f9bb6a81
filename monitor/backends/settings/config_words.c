#include "config_words.h"

#include "config.h"

#include "../base/numbers.h"

#include <grp.h>
#include <jansson.h>
#include <stdlib.h>
#include <string.h>

/* Milliseconds of a period, seconds of patience, and the words for both. */
#define LEAST_PERIOD 10
#define MOST_PERIOD 60000
#define LEAST_SECONDS 1
#define MOST_SECONDS 86400
#define NUMBER(number) #number
#define BETWEEN(what, least, most) what ", from " NUMBER(least) " to " NUMBER(most)

/* What a size is. */
#define A_SIZE "a number with K, M, G or T, in pages of 4K, under 16T"

bool word_is_shown(const char *word)
{
    json_t *shown = json_string(word);
    json_decref(shown);
    return shown != NULL;
}

bool word_is_name(const char *name)
{
    static const char letters[] =
        "abcdefghijklmnopqrstuvwxyzABCDEFGHIJKLMNOPQRSTUVWXYZ0123456789-_";
    size_t length = strlen(name);
    return length > 0 && length < MOST_CONFIG_NAME && strspn(name, letters) == length;
}

/* Reads a size of `least` pages or more. */
static bool read_pages(const char *word, uint32_t least, uint32_t *pages)
{
    uint32_t read;
    if (!read_size(word, &read) || read < least)
        return false;
    *pages = read;
    return true;
}

/* Reads a size, or that there is no limit. */
static bool read_limited(const char *word, uint32_t *pages)
{
    if (strcmp(word, "none") != 0)
        return read_size(word, pages);
    *pages = UINT32_MAX;
    return true;
}

static bool read_between(const char *word, uint64_t least, uint64_t most, uint32_t *number)
{
    uint64_t read;
    if (!read_number(word, 10, most, &read) || read < least)
        return false;
    *number = (uint32_t)read;
    return true;
}

static bool read_mode(const char *word, uint32_t *mode)
{
    size_t length = strlen(word);
    if (length < 3 || length > 4 || strspn(word, "01234567") != length ||
        (length == 4 && word[0] != '0'))
        return false;
    *mode = (uint32_t)strtoul(word, NULL, 8);
    return true;
}

bool config_level(const char *word, uint32_t *level)
{
    static const char *const words[] = {"error", "warning", "notice", "info", "debug"};
    enum { FIRST_LEVEL = 3 }; /* that of errors, of syslog(3) */
    for (uint32_t i = 0; i < sizeof words / sizeof words[0]; i++)
        if (!strcmp(words[i], word))
            return *level = FIRST_LEVEL + i, true;
    return false;
}

static bool read_boolean(const char *word, bool *value)
{
    bool is_yes = !strcmp(word, "yes"), is_no = !strcmp(word, "no");
    if (is_yes || is_no)
        *value = is_yes;
    return is_yes || is_no;
}

static bool read_text(const char *word, bool good, char *text)
{
    size_t length = strlen(word);
    if (!good || length == 0 || length >= MOST_CONFIG_WORD)
        return false;
    memcpy(text, word, length + 1);
    return true;
}

const char *word_read(enum word_kind kind, const char *word, void *at)
{
    switch (kind) {
    case WORD_PATH:
        if (!word_is_shown(word))
            return "a path in UTF-8";
        return read_text(word, word[0] == '/', at) ? NULL
                                                   : "a path from / on, of 127 bytes at most";
    case WORD_GROUP:
        return read_text(word, getgrnam(word) != NULL, at) ? NULL : "a group of this machine";
    case WORD_SIZE:
        return read_pages(word, 1, at) ? NULL : "a size of 4K or more: " A_SIZE;
    case WORD_SIZE_OR_NONE:
        return read_pages(word, 0, at) ? NULL : "a size: " A_SIZE;
    case WORD_SIZE_LIMIT:
        return read_limited(word, at) ? NULL : "none, or a size: " A_SIZE;
    case WORD_NUMBER:
        return read_between(word, 0, UINT32_MAX - 1, at) ? NULL : "a number up to 4294967294";
    case WORD_PERCENT:
        return read_between(word, 0, 100, at) ? NULL : "percent, from 0 to 100";
    case WORD_PRIORITY:
        return read_between(word, 0, UINT32_MAX, at) ? NULL : "a number up to 4294967295";
    case WORD_WEIGHT:
        return read_between(word, 1, UINT32_MAX, at) ? NULL : "a number from 1 to 4294967295";
    case WORD_MILLISECONDS:
        return read_between(word, LEAST_PERIOD, MOST_PERIOD, at)
                   ? NULL
                   : BETWEEN("milliseconds", LEAST_PERIOD, MOST_PERIOD);
    case WORD_SECONDS:
        return read_between(word, LEAST_SECONDS, MOST_SECONDS, at)
                   ? NULL
                   : BETWEEN("seconds", LEAST_SECONDS, MOST_SECONDS);
    case WORD_MODE:
        return read_mode(word, at) ? NULL : "an octal mode, as 0660";
    case WORD_LEVEL:
        return config_level(word, at) ? NULL : "error, warning, notice, info or debug";
    case WORD_LIMIT:
        return limit_read(word, at);
    case WORD_USER:
        return owner_read(word, at);
    default:
        return read_boolean(word, at) ? NULL : "yes or no";
    }
}
