/* The configuration file of a host, in INI's format: what it says, and by line and key what it says
 * wrongly. */
#ifndef CONFIG_H
#define CONFIG_H
#include "../lender/journal.h"
#include "../lender/view.h"

/* Guests that a file names, and of which something was changed, also those that were removed; bytes
 * of a word with its end. */
enum {
    MOST_CONFIG_GUESTS = MOST_GUESTS,
    MOST_CHANGED_GUESTS = 2 * MOST_CONFIG_GUESTS,
    MOST_CONFIG_NAME = 32,
    MOST_CONFIG_WORD = 128
};

/* A guest of the file. */
struct config_guest {
    char name[MOST_CONFIG_NAME];
    struct guest_terms terms;
    uint32_t says; /* a bit for each of its keys that the file says */
    bool removed;  /* of changes: it is none of the host's any longer */
};

/* What the clients of a control socket may do: change the host, and look at it; or look alone. */
enum control_rights { MAY_CHANGE, MAY_LOOK, CONTROL_SOCKETS };

/* A control socket. */
struct config_socket {
    char path[MOST_CONFIG_WORD], group[MOST_CONFIG_WORD]; /* empty: not said */
    uint32_t mode;                                        /* UINT32_MAX: not said */
};

/* What stays as long as the host runs. */
struct config_fixed {
    char folder[MOST_CONFIG_WORD]; /* empty: not said */
    struct config_socket sockets[CONTROL_SOCKETS];
    uint32_t period; /* milliseconds; 0: not said */
};

struct config {
    struct config_fixed fixed;
    uint32_t budget, floor, overdraft; /* pages; UINT32_MAX: not said */
    uint32_t keep, lowest_budget;      /* likewise */
    uint32_t patience;                 /* seconds; UINT32_MAX: not said */
    char on_short[MOST_CONFIG_WORD];   /* a command; empty: not said */
    uint32_t reserve;                  /* percent; UINT32_MAX: not said */
    uint32_t step;  /* a target grows by 1/step of the guest in a second; UINT32_MAX: not said */
    bool strict;    /* guests are, of which nothing else is said */
    uint32_t lines; /* lines of a guest's in a second; UINT32_MAX: not said */
    uint32_t level; /* the least severe lines that are said, as syslog(3) numbers them; UINT32_MAX:
                       not said */
    uint32_t says;  /* a bit for each key that the file says, as config_keys.h numbers them */
    unsigned count;
    struct config_guest guests[MOST_CHANGED_GUESTS]; /* last: those that aren't there take none of
                                                        the machine's memory */
};

/* Makes it a configuration that says nothing; and the same as another one. */
void config_clear(struct config *config);
void config_copy(struct config *to, const struct config *from);

/* Reads a file into a configuration; false where it can't be read or says something wrong, and each
 * fault is a line of say_fault(): the file, the line, the key and what should be there. */
bool config_read(const char *path, struct config *config);

/* The last line of what was changed: it shows that nothing of it was cut off. */
extern const char changes_end[];

/* Reads what was changed, of a file's bytes: whole, with its end, and with nothing in it that can't
 * be changed; false as above, by the path. */
bool changes_parse(const char *path, const char *bytes, size_t length, struct config *config);

/* The guest of this name; NULL: there is none. */
struct config_guest *config_guest_of(struct config *config, const char *name);

/* A guest of which nothing was said yet but its name; NULL: there are as many as can be. */
struct config_guest *config_new_guest(struct config *config, unsigned most, const char *name);

/* Whether two configurations agree in what stays; else the first key that differs is in `*key`,
 * with its section. */
bool config_stays(const struct config *old, const struct config *new, const char **section,
                  const char **key);

/* Whether a key is said, by the bits of those that are. */
static inline bool config_says(uint32_t says, unsigned key)
{
    return says >> key & 1;
}

/* The number of a level's word (error, warning, notice, info, debug); false where it is none. */
bool config_level(const char *word, uint32_t *level);

#endif
