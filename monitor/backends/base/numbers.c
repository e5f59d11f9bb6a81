#include "numbers.h"

#include "say.h"

#include <ctype.h>
#include <errno.h>
#include <inttypes.h>
#include <stdio.h>
#include <stdlib.h>
#include <string.h>

bool read_number(const char *word, int base, uint64_t most, uint64_t *number)
{
    char *end;
    errno = 0;
    *number = strtoull(word, &end, base);
    /* It would take spaces and a sign before them. */
    return isxdigit((unsigned char)word[0]) && !*end && errno == 0 && *number <= most;
}

static const char units[] = "KMGT";
enum { PAGE_KIB = 4 };

bool read_size(const char *word, uint32_t *pages)
{
    enum { MOST_DIGITS = 15 };
    const uint64_t most = (uint64_t)(UINT32_MAX - 1) * PAGE_KIB;
    char digits[MOST_DIGITS + 1];
    size_t length = strlen(word);
    const char *unit = length > 0 ? strchr(units, word[length - 1]) : NULL;
    if (!strcmp(word, "0"))
        return *pages = 0, true;
    if (!unit || length > sizeof digits)
        return false;
    uint64_t number, kib = UINT64_C(1) << (10 * (unit - units));
    memcpy(digits, word, length - 1);
    digits[length - 1] = 0;
    if (!read_number(digits, 10, most / kib, &number) || number * kib % PAGE_KIB)
        return false;
    *pages = (uint32_t)(number * kib / PAGE_KIB);
    return true;
}

const char *size_text(uint64_t pages, char text[MOST_SIZE_TEXT])
{
    uint64_t number = pages * PAGE_KIB;
    unsigned unit = 0;
    while (number > 0 && number % 1024 == 0 && units[unit + 1])
        number /= 1024, unit++;
    snprintf(text, MOST_SIZE_TEXT, "%" PRIu64 "%c", number, units[unit]);
    return text;
}

bool read_features(const char *word, void *at)
{
    return read_number(word, 16, UINT64_MAX, at);
}

bool read_lines(const char *word, void *at)
{
    uint64_t lines;
    bool read = read_number(word, 10, MOST_SAID, &lines);
    *(unsigned *)at = read ? (unsigned)lines : *(unsigned *)at;
    return read;
}

bool read_layout(const char *word, void *at)
{
    return read_number(word, 10, UINT32_MAX, at) && *(uint64_t *)at > 0;
}

bool read_word(const char *word, void *at)
{
    *(const char **)at = word;
    return true;
}
