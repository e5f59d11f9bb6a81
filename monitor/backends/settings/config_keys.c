#include "config_keys.h"

#include <string.h>

#define OF(member) offsetof(struct config, member)
#define TERM(member) offsetof(struct config_guest, terms.member)

const struct key config_keys[CONFIG_KEYS] = {
    [KEY_FOLDER] = {"host", "folder", WORD_PATH, OF(fixed.folder)},
    [KEY_BUDGET] = {"host", "budget", WORD_SIZE, OF(budget)},
    [KEY_KEEP] = {"host", "keep", WORD_SIZE_OR_NONE, OF(keep)},
    [KEY_LOWEST_BUDGET] = {"host", "lowest_budget", WORD_SIZE_OR_NONE, OF(lowest_budget)},
    [KEY_FLOOR] = {"host", "floor", WORD_SIZE_OR_NONE, OF(floor)},
    [KEY_RESERVE] = {"host", "reserve", WORD_PERCENT, OF(reserve)},
    [KEY_OVERDRAFT] = {"host", "overdraft", WORD_SIZE_OR_NONE, OF(overdraft)},
    [KEY_STRICT] = {"host", "strict", WORD_BOOLEAN, OF(strict)},
    [KEY_STEP] = {"host", "step", WORD_NUMBER, OF(step)},
    [KEY_PATIENCE] = {"host", "patience", WORD_SECONDS, OF(patience)},
    [KEY_ON_SHORT] = {"host", "on_short", WORD_PATH, OF(on_short)},
    [KEY_PERIOD] = {"host", "period", WORD_MILLISECONDS, OF(fixed.period)},
    [KEY_CONTROL_SOCKET] = {"control", "socket", WORD_PATH, OF(fixed.sockets[MAY_CHANGE].path)},
    [KEY_CONTROL_MODE] = {"control", "mode", WORD_MODE, OF(fixed.sockets[MAY_CHANGE].mode)},
    [KEY_CONTROL_GROUP] = {"control", "group", WORD_GROUP, OF(fixed.sockets[MAY_CHANGE].group)},
    [KEY_STATUS_SOCKET] = {"status", "socket", WORD_PATH, OF(fixed.sockets[MAY_LOOK].path)},
    [KEY_STATUS_MODE] = {"status", "mode", WORD_MODE, OF(fixed.sockets[MAY_LOOK].mode)},
    [KEY_STATUS_GROUP] = {"status", "group", WORD_GROUP, OF(fixed.sockets[MAY_LOOK].group)},
    [KEY_LEVEL] = {"log", "level", WORD_LEVEL, OF(level)},
    [KEY_LINES] = {"log", "lines", WORD_NUMBER, OF(lines)},
};

const struct key guest_keys[GUEST_KEYS] = {
    [TERM_LEAST] = {"guest", "least", WORD_SIZE_OR_NONE, TERM(least)},
    [TERM_MOST] = {"guest", "most", WORD_SIZE_LIMIT, TERM(most)},
    [TERM_PRIORITY] = {"guest", "priority", WORD_PRIORITY, TERM(priority)},
    [TERM_WEIGHT] = {"guest", "weight", WORD_WEIGHT, TERM(weight)},
    [TERM_STRICT] = {"guest", "strict", WORD_BOOLEAN, TERM(strict)},
    [TERM_OVERHEAD] = {"guest", "overhead", WORD_SIZE_OR_NONE, TERM(overhead)},
    [TERM_LIMIT] = {"guest", "limit", WORD_LIMIT, TERM(limit)},
    [TERM_USER] = {"guest", "user", WORD_USER, TERM(user)},
    [TERM_MEMORY] = {"guest", "memory", WORD_SIZE_LIMIT, TERM(memory)},
    [TERM_START] = {"guest", "start", WORD_SIZE_LIMIT, TERM(start)},
};

int key_find(const struct key *table, unsigned count, const char *section, const char *name)
{
    for (unsigned i = 0; i < count; i++)
        if (!strcmp(table[i].section, section) && !strcmp(table[i].name, name))
            return (int)i;
    return -1;
}

bool key_can_change(unsigned number)
{
    return number == KEY_BUDGET || number == KEY_FLOOR;
}

void *key_value(const struct key *key, void *whole)
{
    return (char *)whole + key->at;
}

/* Bytes of a value. */
static size_t size_of(const struct key *key)
{
    switch (key->kind) {
    case WORD_PATH:
    case WORD_GROUP:
        return MOST_CONFIG_WORD;
    case WORD_LIMIT:
        return sizeof(struct guest_limit);
    case WORD_BOOLEAN:
        return sizeof(bool);
    default:
        return sizeof(uint32_t);
    }
}

void key_copy(const struct key *key, void *to, const void *from)
{
    memcpy((char *)to + key->at, (const char *)from + key->at, size_of(key));
}

bool key_is_same(const struct key *key, const void *one, const void *other)
{
    const char *its = (const char *)one + key->at, *others = (const char *)other + key->at;
    bool is_text = key->kind == WORD_PATH || key->kind == WORD_GROUP;
    return is_text ? !strcmp(its, others) : !memcmp(its, others, size_of(key));
}
