/* A limit's words, and what the kernel has at its path. */
#include "limit.h"

#include <errno.h>
#include <mntent.h>
#include <stdio.h>
#include <string.h>
#include <sys/stat.h>
#include <unistd.h>

static const char *const kinds[] = {
    [LIMIT_NONE] = "none", [LIMIT_CGROUP] = "cgroup:", [LIMIT_TMPFS] = "tmpfs:"};

/* Whether a path is absolute, and said in one way: without `.`, `..`, an empty part, or a slash at
 * its end. */
static bool is_plain(const char *path)
{
    if (path[0] != '/')
        return false;
    while (*path) {
        size_t length = strcspn(++path, "/");
        bool dots = path[0] == '.' && (length == 1 || (length == 2 && path[1] == '.'));
        if (length == 0 || dots)
            return false;
        path += length;
    }
    return true;
}

/* Whether a path can be said on a line and in JSON, between spaces. */
static bool is_sayable(const char *path)
{
    while (*path > ' ' && *path <= '~')
        path++;
    return !*path;
}

/* The kind that these words begin with. */
static enum limit_kind kind_of(const char *words)
{
    if (!strncmp(words, kinds[LIMIT_CGROUP], strlen(kinds[LIMIT_CGROUP])))
        return LIMIT_CGROUP;
    return strncmp(words, kinds[LIMIT_TMPFS], strlen(kinds[LIMIT_TMPFS])) ? LIMIT_NONE
                                                                          : LIMIT_TMPFS;
}

const char *limit_read(const char *words, struct guest_limit *limit)
{
    enum limit_kind kind = kind_of(words);
    const char *path = words + strlen(kinds[kind]);
    if (!strcmp(words, kinds[LIMIT_NONE])) {
        *limit = (struct guest_limit){LIMIT_NONE, ""};
        return NULL;
    }
    if (kind == LIMIT_NONE)
        return "none, cgroup:PATH or tmpfs:MOUNT";
    if (!is_plain(path))
        return "a path from / on, without ., .. or a slash too many";
    if (strlen(path) >= MOST_LIMIT_PATH || !is_sayable(path))
        return "a path of 151 bytes at most, each of them a letter, a digit or a sign of ASCII";
    *limit = (struct guest_limit){kind, ""};
    strcpy(limit->path, path);
    return NULL;
}

const char *limit_words(const struct guest_limit *limit, char words[MOST_LIMIT_WORDS])
{
    snprintf(words, MOST_LIMIT_WORDS, "%s%s", kinds[limit->kind], limit->path);
    return words;
}

/* Whether a path is a folder, or lies in it. */
static bool is_in(const char *path, const char *folder)
{
    size_t length = strlen(folder);
    if (length == 1)
        return true;
    return !strncmp(path, folder, length) && (path[length] == '/' || !path[length]);
}

/* What is mounted where a path is. */
struct place {
    char folder[MOST_LIMIT_PATH], type[16];
    bool has_memory; /* of cgroups of the first version: the memory's */
};

/* Finds the innermost mount that has a path, and of those at one folder the last: it covers the
 * others. Nothing of the path is touched, since a mount of another kind may have to be waited
  * for. */
static bool find_place(const char *path, struct place *place)
{
    char names[8192];
    struct mntent entry;
    FILE *mounts = setmntent("/proc/self/mounts", "re");
    *place = (struct place){"", "", false};
    while (mounts && getmntent_r(mounts, &entry, names, sizeof names)) {
        size_t length = strlen(entry.mnt_dir);
        if (length >= sizeof place->folder || length < strlen(place->folder) ||
            !is_in(path, entry.mnt_dir))
            continue;
        strcpy(place->folder, entry.mnt_dir);
        snprintf(place->type, sizeof place->type, "%s", entry.mnt_type);
        place->has_memory = hasmntopt(&entry, "memory") != NULL;
    }
    if (mounts)
        endmntent(mounts);
    return place->folder[0];
}

/* Whether there is a file of this name in a folder. */
static bool has_file(const char *folder, const char *name)
{
    char path[MOST_LIMIT_WORDS + 32];
    snprintf(path, sizeof path, "%s/%s", folder, name);
    return access(path, F_OK) == 0;
}

static const char *cgroup_fault(const char *path, const struct place *place)
{
    bool second = !strcmp(place->type, "cgroup2");
    if (!second && (strcmp(place->type, "cgroup") != 0 || !place->has_memory))
        return "no cgroup of memory";
    if (access(path, F_OK))
        return errno == ENOENT ? NULL : strerror(errno);
    return has_file(path, second ? "memory.max" : "memory.limit_in_bytes")
               ? NULL
               : "a cgroup without a limit of memory";
}

const char *limit_fault(const struct guest_limit *limit)
{
    struct place place;
    if (limit->kind == LIMIT_NONE)
        return NULL;
    if (!find_place(limit->path, &place))
        return "the kernel's table of mounts can't be read";
    if (limit->kind == LIMIT_CGROUP)
        return cgroup_fault(limit->path, &place);
    bool is_tmpfs = !strcmp(place.folder, limit->path) && !strcmp(place.type, "tmpfs");
    return is_tmpfs ? NULL : "no mount of tmpfs";
}

bool limits_meet(const struct guest_limit *one, const struct guest_limit *other)
{
    if (one->kind == LIMIT_NONE || one->kind != other->kind)
        return false;
    if (one->kind == LIMIT_TMPFS)
        return !strcmp(one->path, other->path);
    return is_in(one->path, other->path) || is_in(other->path, one->path);
}

bool limits_collide(const struct guest_limit *one, const struct guest_limit *other)
{
    return limits_meet(one, other) || limits_are_one(one, other);
}

bool limits_are_one(const struct guest_limit *one, const struct guest_limit *other)
{
    struct stat first, second;
    if (one->kind == LIMIT_NONE || one->kind != other->kind || stat(one->path, &first) ||
        stat(other->path, &second))
        return false;
    return first.st_dev == second.st_dev &&
           (one->kind == LIMIT_TMPFS || first.st_ino == second.st_ino);
}
