/* What was changed of a host by its control socket, beside its configuration file: what lasts, in a
 * folder of the lender's, and what ends with the lender. */
#ifndef CHANGES_H
#define CHANGES_H
#include "config_keys.h"

enum { MOST_CHANGES_FAULT = 256 };

struct changes {
    const char *path;               /* of the folder; NULL: nothing lasts */
    int folder;                     /* its file; -1: nothing can be kept there */
    char fault[MOST_CHANGES_FAULT]; /* why not */
    struct config lasting, passing; /* what differs from the file, and from both */
    struct config lasted, passed;   /* the same before the last change */
};

/* How long a change lasts. */
enum lasting { FOR_GOOD, UNTIL_RESTART };

/* Takes the folder, and what it has; where it can't, that is said, and nothing was changed: the
 * host continues by its file. To check a file the folder isn't locked. */
void changes_open(struct changes *changes, const char *path, bool locks);

/* A configuration with what was changed. */
void changes_put_over(const struct changes *changes, struct config *config);

/* For how long a change lasts that is asked for: FOR_GOOD, where there is a folder. */
enum lasting changes_last(const struct changes *changes, bool until_restart);

/* Keeps a change: of a size of the host's; of these terms of a guest, which may be new; that a
 * guest is removed. `file` is the configuration file's. NULL, or why it can't be kept: then all
 * stays. */
const char *changes_keep_size(struct changes *changes, const struct config *file,
                              enum lasting lasting, enum config_key key, uint32_t pages);
const char *changes_keep_terms(struct changes *changes, const struct config *file,
                               enum lasting lasting, const struct config_guest *guest, bool is_new);
const char *changes_keep_removal(struct changes *changes, const struct config *file,
                                 enum lasting lasting, const char *name);

/* The last change couldn't be made after all. */
void changes_undo(struct changes *changes, enum lasting lasting);

/* Writes text into a file of a folder as a whole, or not at all: NULL, or why not. */
const char *changes_write(int folder, const char *name, const char *text);

#endif
