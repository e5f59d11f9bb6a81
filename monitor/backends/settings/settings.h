/* The settings of a host: what its configuration file says, what was changed beside it and by whom,
 * and what is so just now. */
#ifndef SETTINGS_H
#define SETTINGS_H
#include "audit.h"
#include "changes.h"

/* What the command line says that a file may say, too: UINT32_MAX or an empty word is nothing. */
struct host_options {
    struct config_socket sockets[CONTROL_SOCKETS];
    uint32_t level; /* of what is said */
    unsigned lines; /* of a guest's in a second */
};

struct settings {
    const char *file;     /* of the configuration; NULL: none */
    const char *state;    /* the folder of what was changed; NULL: none */
    struct config config; /* what the file says */
    struct config usual;  /* what is so of the keys of the host's of which it says nothing */
    struct changes changes;
    struct audit audit;
    struct config_socket sockets[CONTROL_SOCKETS]; /* as they are */
    uint32_t level;                                /* of what is said, as it is */
    struct host_options options,
        before; /* after the file was named, or where none is; and before */
    struct host *host;
};

/* As nothing was read yet. */
void settings_defaults(struct settings *settings);

/* Reads a configuration; false where it can't, and each fault is said. */
bool settings_read(struct settings *settings, const char *file);

/* Takes what it says of the control sockets and of what is said, where the command line doesn't say
 * that after it; and where neither does, what that says before it. */
void settings_take(struct settings *settings);

/* Takes what was changed of the host, before all that was said of it. */
void settings_recall(struct settings *settings, struct host *host);

/* Whether a host could start by this file, with the options that it has of the command line; else
 * each fault is said. */
bool settings_check(const struct settings *settings, const char *file, const struct host *host);

/* Whether the control sockets have paths of their own; else says so. */
bool settings_are_apart(const char *one, const char *other);

/* Adds the guests of the configuration, and of what was changed, to the host; false where the file
 * has one that it doesn't take, which is said. */
bool settings_apply(struct settings *settings, struct host *host);

/* Reads the configuration again; NULL, or the first fault: then the old one stays. Each is said. */
const char *settings_reload(struct settings *settings);

/* What there is just now, in a configuration that says all of it. */
void settings_see(const struct settings *settings, struct config *seen);

/* All that is so just now, as a configuration file; what is to be freed, NULL where there is no
 * memory. */
char *settings_text(const struct settings *settings);

/* Notes what differs from what there was, by whom, and says it. */
void settings_note(struct settings *settings, const struct config *before,
                   const struct author *author);

#endif
