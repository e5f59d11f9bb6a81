#include "config.h"

#include "config_keys.h"

#include "../base/say.h"

#include <errno.h>
#include <ini.h>
#include <stddef.h>
#include <stdio.h>
#include <stdlib.h>
#include <string.h>

/* Bytes of a line with its end, as the parser reads it; of a file; of what is said of a name. */
enum { MOST_LINE = 190, MOST_FILE = 1 << 20, MOST_SHOWN = 64 };

const char changes_end[] = "# The end of what was changed.\n";

/* A file that is being read. */
struct reader {
    const char *path;
    const char *next; /* what wasn't read yet */
    size_t left;
    struct config *config;
    unsigned line; /* of the last line that was read */
    bool faulty;
    unsigned lines[CONFIG_KEYS]; /* that say the keys */
    unsigned guest_lines[MOST_CHANGED_GUESTS][GUEST_KEYS];
    bool of_changes; /* of what was changed, in place of a configuration */
};

static bool fault_at(struct reader *reader, unsigned line, const char *key, const char *words)
{
    char shown[MOST_SHOWN];
    snprintf(shown, sizeof shown, "%s", key);
    for (char *it = shown; *it; it++)
        if (*it < ' ' || *it > '~')
            *it = '?';
    reader->faulty = true;
    return say_fault("%s: line %u: %s%s%s", reader->path, line, shown, *shown ? ": " : "", words);
}

static bool fault(struct reader *reader, const char *key, const char *words)
{
    return fault_at(reader, reader->line, key, words);
}

struct config_guest *config_guest_of(struct config *config, const char *name)
{
    for (unsigned i = 0; i < config->count; i++)
        if (!strcmp(config->guests[i].name, name))
            return &config->guests[i];
    return NULL;
}

struct config_guest *config_new_guest(struct config *config, unsigned most, const char *name)
{
    if (config->count == most)
        return NULL;
    struct config_guest *guest = &config->guests[config->count++];
    *guest = (struct config_guest){.terms = {.most = UINT32_MAX,
                                             .weight = 1,
                                             .overhead = USUAL_OVERHEAD,
                                             .user = ANY_USER,
                                             .memory = UINT32_MAX,
                                             .start = UINT32_MAX}};
    strcpy(guest->name, name);
    return guest;
}

/* The guest of a section `guest NAME`, which may be new; NULL, which is said, where it is none. */
static struct config_guest *guest_of(struct reader *reader, const char *section)
{
    const char *name = section + strlen("guest ");
    struct config_guest *guest = config_guest_of(reader->config, name);
    if (guest)
        return guest;
    if (!word_is_name(name))
        return fault(reader, section, "a guest's name has 1 to 31 letters, digits, - and _"), NULL;
    guest = config_new_guest(reader->config,
                             reader->of_changes ? MOST_CHANGED_GUESTS : MOST_CONFIG_GUESTS, name);
    if (!guest)
        fault(reader, section, "there are as many guests as can be");
    return guest;
}

/* What is said of a guest that was removed. */
static const char removed_key[] = "removed";

/* Takes the value of a key into what it belongs to, whose keys that were said are in `*says`, and
 * the lines that say them in `lines`. */
static void keep(struct reader *reader, const struct key *table, unsigned number, void *whole,
                 uint32_t *says, unsigned *lines, const char *value)
{
    const struct key *key = &table[number];
    const char *wanted = config_says(*says, number) ? "it is said twice" : NULL;
    wanted = wanted ? wanted : word_read(key->kind, value, key_value(key, whole));
    *says |= UINT32_C(1) << number;
    lines[number] = reader->line;
    if (wanted)
        fault(reader, key->name, wanted);
}

static void take_of_guest(struct reader *reader, const char *section, const char *name,
                          const char *value)
{
    int number = key_find(guest_keys, GUEST_KEYS, "guest", name);
    bool removes = reader->of_changes && !strcmp(name, removed_key) && !strcmp(value, "yes");
    struct config_guest *guest = number >= 0 || removes ? guest_of(reader, section) : NULL;
    if (number < 0 && !removes)
        fault(reader, name, "this section has no such key");
    if (guest && removes) {
        guest->removed = true;
        return;
    }
    if (guest)
        keep(reader, guest_keys, (unsigned)number, guest, &guest->says,
             reader->guest_lines[guest - reader->config->guests], value);
}

/* One key of the file, as the parser hands it over. */
static int take(void *context, const char *section, const char *name, const char *value)
{
    struct reader *reader = context;
    struct config *config = reader->config;
    int number = key_find(config_keys, CONFIG_KEYS, section, name);
    if (!strncmp(section, "guest ", strlen("guest ")))
        take_of_guest(reader, section, name, value);
    else if (number < 0 || (reader->of_changes && !key_can_change((unsigned)number)))
        fault(reader, name,
              *section ? "this section has no such key" : "a key comes after its section");
    else
        keep(reader, config_keys, (unsigned)number, config, &config->says, reader->lines, value);
    return 1;
}

#define COUNT(table) (sizeof(table) / sizeof(table)[0])

/* Whether a line is the beginning of a section that there can be. */
static bool is_section(const char *line)
{
    static const char *const sections[] = {"[host]", "[control]", "[status]", "[log]", "[guest "};
    for (unsigned i = 0; i < COUNT(sections); i++)
        if (!strncmp(line, sections[i], strlen(sections[i])))
            return true;
    return false;
}

/* Takes note of a section's first line: the parser hands over keys alone, and a guest may have
 * none. */
static void take_section(struct reader *reader, const char *line)
{
    char name[MOST_LINE];
    if (!is_section(line))
        fault(reader, "", "the sections are [host], [control], [status], [log] and [guest NAME]");
    else if (!strncmp(line, "[guest ", strlen("[guest ")) && sscanf(line, "[%187[^]]]", name) == 1)
        guest_of(reader, name);
}

/* What a line begins with, as the parser reads it: without blanks, and the first one without a mark
 * of its bytes' order. */
static const char *beginning(const struct reader *reader, const char *line)
{
    static const char mark[] = "\xef\xbb\xbf";
    if (reader->line == 1 && !strncmp(line, mark, strlen(mark)))
        line += strlen(mark);
    return line + strspn(line, " \t");
}

/* The next line for the parser, which doesn't count them itself. One that it can't take is a fault,
 * and empty. */
static char *next_line(char *bytes, int room, void *context)
{
    struct reader *reader = context;
    if (reader->left == 0)
        return NULL;
    const char *line = reader->next, *end = memchr(line, '\n', reader->left);
    size_t length = end ? (size_t)(end + 1 - line) : reader->left;
    bool whole = length < (size_t)room && length < MOST_LINE && !memchr(line, 0, length);
    reader->next += length;
    reader->left -= length;
    reader->line++;
    memcpy(bytes, whole ? line : "\n", whole ? length : 1);
    bytes[whole ? length : 1] = 0;
    if (!whole)
        fault(reader, "", "a line has 189 bytes at most, and none of them is 0");
    else if (beginning(reader, bytes)[0] == '[')
        take_section(reader, beginning(reader, bytes));
    return bytes;
}

/* Whether a guest before this one has its limit. */
static bool shares_limit(const struct config *config, unsigned number)
{
    for (unsigned i = 0; i < number; i++)
        if (limits_meet(&config->guests[i].terms.limit, &config->guests[number].terms.limit))
            return true;
    return false;
}

/* What no single key shows. */
static void check_guest(struct reader *reader, unsigned number)
{
    const struct config_guest *guest = &reader->config->guests[number];
    const char *key, *words = terms_fault(&guest->terms, &key);
    char whole[2 * MOST_CONFIG_WORD];
    if (!words && shares_limit(reader->config, number))
        key = "limit", words = "the limit is another guest's";
    if (!words)
        return;
    int its = key_find(guest_keys, GUEST_KEYS, "guest", key);
    snprintf(whole, sizeof whole, "guest %s: %s", guest->name, words);
    fault_at(reader, reader->guest_lines[number][its], key, whole);
}

static void check(struct reader *reader)
{
    const struct config *config = reader->config;
    for (unsigned i = 0; i < config->count; i++)
        check_guest(reader, i);
    if (config->overdraft != UINT32_MAX && config->overdraft > config->budget)
        fault_at(reader, reader->lines[KEY_OVERDRAFT], "overdraft", "more than the budget");
    if (config->lowest_budget != UINT32_MAX && config->lowest_budget > config->budget)
        fault_at(reader, reader->lines[KEY_LOWEST_BUDGET], "lowest_budget", "more than the budget");
}

void config_clear(struct config *config)
{
    memset(config, 0, offsetof(struct config, guests));
    config->budget = config->keep = config->lowest_budget = config->floor = UINT32_MAX;
    config->reserve = config->step = config->overdraft = config->patience = UINT32_MAX;
    config->lines = config->level = UINT32_MAX;
    for (unsigned i = 0; i < CONTROL_SOCKETS; i++)
        config->fixed.sockets[i].mode = UINT32_MAX;
}

void config_copy(struct config *to, const struct config *from)
{
    memcpy(to, from, offsetof(struct config, guests) + from->count * sizeof from->guests[0]);
}

/* Reads what there is of a file, and one byte more than may be; NULL with errno where it can't. */
static char *read_bytes(const char *path, size_t *length)
{
    FILE *file = fopen(path, "re");
    char *bytes = file ? malloc(MOST_FILE + 1) : NULL;
    *length = bytes ? fread(bytes, 1, MOST_FILE + 1, file) : 0;
    int why = errno;
    bool good = bytes && !ferror(file);
    if (file)
        fclose(file);
    if (good)
        return bytes;
    free(bytes);
    return errno = why, NULL;
}

/* Reads a file's bytes. */
static void parse(struct reader *reader)
{
    int line = ini_parse_stream(next_line, reader, take, reader);
    if (line > 0) {
        reader->line = (unsigned)line;
        fault(reader, "", "neither a section, nor a key with its value, nor a comment");
    }
    if (!reader->of_changes)
        check(reader);
}

bool config_read(const char *path, struct config *config)
{
    struct reader reader = {.path = path, .config = config};
    char *bytes = read_bytes(path, &reader.left);
    config_clear(config);
    if (!bytes)
        return say_fault("%s: %s", path, strerror(errno));
    reader.next = bytes;
    if (reader.left > MOST_FILE)
        reader.faulty = !say_fault("%s: a file has 1 MiB at most", path);
    else
        parse(&reader);
    free(bytes);
    return !reader.faulty;
}

bool changes_parse(const char *path, const char *bytes, size_t length, struct config *config)
{
    size_t end = strlen(changes_end);
    struct reader reader = {
        .path = path, .config = config, .next = bytes, .left = length, .of_changes = true};
    config_clear(config);
    if (length < end || memcmp(bytes + length - end, changes_end, end) != 0)
        return say_fault("%s: its end is missing", path);
    parse(&reader);
    return !reader.faulty;
}

/* Whether what a key says stays as long as the host runs. */
static bool is_fixed(const struct key *key)
{
    return key->at - offsetof(struct config, fixed) < sizeof((struct config *)NULL)->fixed;
}

bool config_stays(const struct config *old, const struct config *new, const char **section,
                  const char **key)
{
    for (unsigned i = 0; i < CONFIG_KEYS; i++) {
        if (!is_fixed(&config_keys[i]) || key_is_same(&config_keys[i], old, new))
            continue;
        *section = config_keys[i].section;
        *key = config_keys[i].name;
        return false;
    }
    return true;
}
