/* What may be after a key of the configuration file. */
#ifndef CONFIG_WORDS_H
#define CONFIG_WORDS_H
#include <stdbool.h>
#include <stdint.h>

/* Each says what the word is, and what it is read into: WORD_PATH and WORD_GROUP into
 * MOST_CONFIG_WORD bytes, WORD_BOOLEAN into a bool, WORD_LIMIT into a struct guest_limit, the
 * others into a uint32_t. Sizes are read as pages (read_size); of a limit, none is UINT32_MAX. */
enum word_kind {
    WORD_PATH,
    WORD_GROUP,
    WORD_SIZE,
    WORD_SIZE_OR_NONE,
    WORD_SIZE_LIMIT,
    WORD_NUMBER,
    WORD_PRIORITY,
    WORD_PERCENT,
    WORD_WEIGHT,
    WORD_MILLISECONDS,
    WORD_SECONDS,
    WORD_MODE,
    WORD_LEVEL,
    WORD_BOOLEAN,
    WORD_LIMIT,
    WORD_USER
};

/* Reads a word; NULL, or what should be there: then nothing has changed. */
const char *word_read(enum word_kind kind, const char *word, void *at);

/* Whether an answer of a control socket can have this word, which has to be UTF-8. */
bool word_is_shown(const char *word);

/* Whether a guest may have this name. */
bool word_is_name(const char *name);

#endif
