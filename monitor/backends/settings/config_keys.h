/* The keys of a configuration: the section and the kind of each, and where its value is in a
 * configuration or in a guest of it. */
#ifndef CONFIG_KEYS_H
#define CONFIG_KEYS_H
#include "config.h"
#include "config_words.h"

enum config_key {
    KEY_FOLDER,
    KEY_BUDGET,
    KEY_KEEP,
    KEY_LOWEST_BUDGET,
    KEY_FLOOR,
    KEY_RESERVE,
    KEY_OVERDRAFT,
    KEY_STRICT,
    KEY_STEP,
    KEY_PATIENCE,
    KEY_ON_SHORT,
    KEY_PERIOD,
    KEY_CONTROL_SOCKET,
    KEY_CONTROL_MODE,
    KEY_CONTROL_GROUP,
    KEY_STATUS_SOCKET,
    KEY_STATUS_MODE,
    KEY_STATUS_GROUP,
    KEY_LEVEL,
    KEY_LINES,
    CONFIG_KEYS
};

enum guest_key {
    TERM_LEAST,
    TERM_MOST,
    TERM_PRIORITY,
    TERM_WEIGHT,
    TERM_STRICT,
    TERM_OVERHEAD,
    TERM_LIMIT,
    TERM_USER,
    TERM_MEMORY,
    TERM_START,
    GUEST_KEYS
};

struct key {
    const char *section, *name;
    enum word_kind kind;
    size_t at;
};

extern const struct key config_keys[CONFIG_KEYS], guest_keys[GUEST_KEYS];

/* Whether a request changes the host by this key. */
bool key_can_change(unsigned number);

/* The number of the key of this name in a table of `count`; -1: there is none. */
int key_find(const struct key *table, unsigned count, const char *section, const char *name);

/* Where its value is in what it belongs to. */
void *key_value(const struct key *key, void *whole);

/* Takes its value from another one. */
void key_copy(const struct key *key, void *to, const void *from);

/* Whether its values in two of what it belongs to are the same. */
bool key_is_same(const struct key *key, const void *one, const void *other);

#endif
