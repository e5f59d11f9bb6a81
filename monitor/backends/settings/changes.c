#include "changes.h"

#include "config_text.h"

#include "../base/loop.h"
#include "../base/say.h"

#include <errno.h>
#include <fcntl.h>
#include <poll.h>
#include <stdio.h>
#include <stdlib.h>
#include <string.h>
#include <sys/file.h>
#include <sys/stat.h>
#include <unistd.h>

/* Bytes of the file of changes: all terms of a guest take no more than its part. */
enum { PART_OF_GUEST = 512, MOST_CHANGES = PART_OF_GUEST * MOST_CHANGED_GUESTS };

/* Milliseconds in which a process ends whose lender was killed, and between two looks for that. */
enum { ENDS_IN = 2000, APART = 10 };

static const char file_name[] = "changes.conf",
                  file_begin[] =
                      "# What bigvasta(1) has changed beside the configuration file. The host "
                      "writes this.\n";

/* Nothing can be kept, and this is why. */
static void refuse_all(struct changes *changes, const char *file, const char *why)
{
    snprintf(changes->fault, sizeof changes->fault, "%s%s%s: %s", changes->path, *file ? "/" : "",
             file, why);
    say_fault("%s: nothing of it is taken, and no change is kept", changes->fault);
    if (changes->folder >= 0)
        close(changes->folder);
    changes->folder = -1;
    config_clear(&changes->lasting);
}

/* Why nobody but the lender's user may have written something; NULL: it is so. */
static const char *owner_fault(const struct stat *its)
{
    if (its->st_uid != geteuid())
        return "it is another user's";
    return its->st_mode & (S_IWGRP | S_IWOTH) ? "others may write it" : NULL;
}

/* Reads the file's bytes; NULL with why not, which is NULL where there is no file. */
static char *read_file(int folder, size_t *length, const char **why)
{
    struct stat its;
    int file = openat(folder, file_name, O_RDONLY | O_NOFOLLOW | O_NONBLOCK | O_CLOEXEC);
    char *bytes = NULL;
    if (file < 0)
        return *why = errno == ENOENT ? NULL : strerror(errno), NULL;
    *why = fstat(file, &its) ? strerror(errno) : owner_fault(&its);
    if (!*why && (!S_ISREG(its.st_mode) || its.st_size > MOST_CHANGES))
        *why = "no file of 1 MiB at most";
    if (!*why && !(bytes = malloc(MOST_CHANGES)))
        *why = strerror(ENOMEM);
    ssize_t got = bytes ? read(file, bytes, MOST_CHANGES) : 0;
    if (got < 0)
        *why = strerror(errno);
    close(file);
    *length = got > 0 ? (size_t)got : 0;
    if (*why)
        free(bytes);
    return *why ? NULL : bytes;
}

/* Takes the folder's lock; false with errno where another host has it. The process that writes has
 * it a moment longer than a lender that was killed amid that. */
static bool lock_folder(int folder)
{
    int64_t until = loop_now() + ENDS_IN;
    while (flock(folder, LOCK_EX | LOCK_NB)) {
        if (errno != EWOULDBLOCK || loop_now() >= until)
            return false;
        poll(NULL, 0, APART);
    }
    return true;
}

/* Opens the folder; NULL, or why it can't be the lender's. */
static const char *open_folder(struct changes *changes, bool locks)
{
    struct stat its;
    changes->folder = open(changes->path, O_RDONLY | O_DIRECTORY | O_CLOEXEC);
    if (changes->folder < 0 || fstat(changes->folder, &its))
        return strerror(errno);
    const char *why = owner_fault(&its);
    if (why || !locks || lock_folder(changes->folder))
        return why;
    return errno == EWOULDBLOCK ? "it is another host's" : strerror(errno);
}

void changes_open(struct changes *changes, const char *path, bool locks)
{
    changes->path = path;
    changes->folder = -1;
    changes->fault[0] = 0;
    config_clear(&changes->lasting), config_clear(&changes->passing);
    size_t length = 0;
    if (!path)
        return;
    const char *why = open_folder(changes, locks);
    if (why) {
        refuse_all(changes, "", why);
        return;
    }
    char whole[MOST_CHANGES_FAULT], *bytes = read_file(changes->folder, &length, &why);
    snprintf(whole, sizeof whole, "%s/%s", path, file_name);
    if (why)
        refuse_all(changes, file_name, why);
    else if (bytes && !changes_parse(whole, bytes, length, &changes->lasting))
        refuse_all(changes, file_name, "it isn't as the host has written it");
    free(bytes);
}

enum lasting changes_last(const struct changes *changes, bool until_restart)
{
    return changes->path && !until_restart ? FOR_GOOD : UNTIL_RESTART;
}

/* Puts what was changed of a guest over a configuration. */
static void put_guest_over(const struct config_guest *changed, struct config *config)
{
    struct config_guest *guest = config_guest_of(config, changed->name);
    if (guest && changed->removed) {
        memmove(guest, guest + 1,
                (size_t)(config->guests + --config->count - guest) * sizeof *guest);
        return;
    }
    if (!guest && !changed->removed)
        guest = config_new_guest(config, MOST_CHANGED_GUESTS, changed->name);
    for (unsigned i = 0; i < GUEST_KEYS && guest; i++)
        if (config_says(changed->says, i))
            key_copy(&guest_keys[i], guest, changed);
    if (guest)
        guest->says |= changed->says;
}

static void put_over(const struct config *changed, struct config *config)
{
    for (unsigned i = 0; i < CONFIG_KEYS; i++)
        if (config_says(changed->says, i))
            key_copy(&config_keys[i], config, changed);
    config->says |= changed->says;
    for (unsigned i = 0; i < changed->count; i++)
        put_guest_over(&changed->guests[i], config);
}

void changes_put_over(const struct changes *changes, struct config *config)
{
    put_over(&changes->lasting, config);
    put_over(&changes->passing, config);
}

/* Writes what is to last, if it reads as it is meant; NULL, or why not. */
static const char *write_lasting(const struct changes *changes, const struct config *next)
{
    static struct config again;
    char *text = config_text(next), *whole = NULL, *reads = NULL;
    if (!text || asprintf(&whole, "%s%s%s", file_begin, text, changes_end) < 0)
        return free(text), strerror(ENOMEM);
    bool good = changes_parse(file_name, whole, strlen(whole), &again) &&
                (reads = config_text(&again)) && !strcmp(reads, text);
    const char *why = good ? changes_write(changes->folder, file_name, whole)
                           : "it wouldn't be read as it is meant";
    free(text), free(whole), free(reads);
    return why;
}

static struct config *changes_of(struct changes *changes, enum lasting lasting)
{
    return lasting == FOR_GOOD ? &changes->lasting : &changes->passing;
}

/* Has the changes be these: of those that last, once they are written. */
static const char *become(struct changes *changes, enum lasting lasting, const struct config *next)
{
    static char fault[MOST_CHANGES_FAULT + 64];
    const char *why = NULL;
    if (lasting == FOR_GOOD)
        why = changes->folder >= 0 ? write_lasting(changes, next) : changes->fault;
    if (why) {
        snprintf(fault, sizeof fault,
                 "it can't be kept: %s; --until-restart changes it all the same", why);
        return fault;
    }
    config_copy(&changes->lasted, &changes->lasting);
    config_copy(&changes->passed, &changes->passing);
    config_copy(changes_of(changes, lasting), next);
    return NULL;
}

void changes_undo(struct changes *changes, enum lasting lasting)
{
    if (lasting == FOR_GOOD && write_lasting(changes, &changes->lasted))
        return;
    config_copy(&changes->lasting, &changes->lasted);
    config_copy(&changes->passing, &changes->passed);
}

const char *changes_keep_size(struct changes *changes, const struct config *file,
                              enum lasting lasting, enum config_key key, uint32_t pages)
{
    static struct config next;
    config_copy(&next, changes_of(changes, lasting));
    uint32_t bit = UINT32_C(1) << key;
    memcpy(key_value(&config_keys[key], &next), &pages, sizeof pages);
    bool is_files = config_says(file->says, key) && key_is_same(&config_keys[key], &next, file);
    next.says = is_files && lasting == FOR_GOOD ? next.says & ~bit : next.says | bit;
    const char *fault = become(changes, lasting, &next);
    if (!fault && lasting == FOR_GOOD)
        changes->passing.says &= ~bit;
    return fault;
}

static void drop(struct config *config, struct config_guest *guest)
{
    memmove(guest, guest + 1, (size_t)(config->guests + --config->count - guest) * sizeof *guest);
}

/* What is said of a guest that is changed: the terms that are asked for, and of one that comes also
 * those that the file has otherwise; but for those that the file says. */
static void say_terms(struct config_guest *its, const struct config_guest *guest,
                      const struct config_guest *files, bool is_new, enum lasting lasting)
{
    for (unsigned i = 0; i < GUEST_KEYS; i++) {
        bool asked = config_says(guest->says, i), in_file = files && config_says(files->says, i),
             is_files = in_file && key_is_same(&guest_keys[i], guest, files);
        if (!asked && !is_new)
            continue;
        bool says = (asked || in_file) && !(is_files && lasting == FOR_GOOD);
        uint32_t bit = UINT32_C(1) << i;
        key_copy(&guest_keys[i], its, guest);
        its->says = says ? its->says | bit : its->says & ~bit;
    }
}

/* What is kept of a guest beside what lasts is no more than what wasn't changed for good. */
static void forget_passing(struct changes *changes, const struct config_guest *guest, bool is_new)
{
    struct config_guest *its = config_guest_of(&changes->passing, guest->name);
    if (its)
        its->says &= ~guest->says;
    if (its && (its->says == 0 || is_new))
        drop(&changes->passing, its);
}

const char *changes_keep_terms(struct changes *changes, const struct config *file,
                               enum lasting lasting, const struct config_guest *guest, bool is_new)
{
    static struct config next;
    config_copy(&next, changes_of(changes, lasting));
    struct config_guest *files = config_guest_of((struct config *)file, guest->name),
                        *its = config_guest_of(&next, guest->name);
    if (its && is_new)
        drop(&next, its), its = NULL;
    its = its ? its : config_new_guest(&next, MOST_CHANGED_GUESTS, guest->name);
    if (!its)
        return "as many guests were changed as can be";
    say_terms(its, guest, files, is_new, lasting);
    if (its->says == 0 && files && lasting == FOR_GOOD)
        drop(&next, its);
    const char *fault = become(changes, lasting, &next);
    if (!fault && lasting == FOR_GOOD)
        forget_passing(changes, guest, is_new);
    return fault;
}

const char *changes_keep_removal(struct changes *changes, const struct config *file,
                                 enum lasting lasting, const char *name)
{
    static struct config next;
    config_copy(&next, changes_of(changes, lasting));
    struct config_guest *its = config_guest_of(&next, name);
    bool lasts = lasting == UNTIL_RESTART && config_guest_of(&changes->lasting, name);
    bool is_marked = lasts || config_guest_of((struct config *)file, name);
    if (its)
        drop(&next, its);
    its = is_marked ? config_new_guest(&next, MOST_CHANGED_GUESTS, name) : NULL;
    if (is_marked && !its)
        return "as many guests were changed as can be";
    if (its)
        its->removed = true;
    const char *fault = become(changes, lasting, &next);
    struct config_guest *passing = config_guest_of(&changes->passing, name);
    if (!fault && lasting == FOR_GOOD && passing)
        drop(&changes->passing, passing);
    return fault;
}
