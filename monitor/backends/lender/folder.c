/* The folder of a host: whose it is, and what an earlier lender has left in it. */
#include "places.h"

#include <dirent.h>
#include <inttypes.h>
#include <limits.h>
#include <stdlib.h>
#include <sys/file.h>
#include <sys/stat.h>
#include <unistd.h>

enum { MOST_KEPT = MOST_PATH + MOST_LIMIT_WORDS };

/* The folder of channels; and what 0.3.0 had before a guest's name in place of it. */
static const char channels_name[] = ".channels", earlier_mark[] = "+";

/* What is before a guest's name in that folder, of the file that the writer of its limit locks. */
static const char lock_mark[] = ".";

/* How what is kept of a guest begins, and how many numbers follow. 0.3.0 kept its overhead and its
 * limit alone. */
static const char terms_word[] = "terms ";
enum { KEPT_NUMBERS = 10 };

void remove_socket(const char *path)
{
    struct stat file;
    if (!lstat(path, &file) && S_ISSOCK(file.st_mode))
        unlink(path);
}

bool is_name(const char *name)
{
    static const char letters[] =
        "abcdefghijklmnopqrstuvwxyzABCDEFGHIJKLMNOPQRSTUVWXYZ0123456789-_";
    size_t length = strlen(name);
    return length > 0 && length < MOST_NAME && strspn(name, letters) == length;
}

/* Opens the folder of channels, and makes it where it isn't there. Sockets in it have paths by its
 * file, so that nobody puts another one in its place. */
static bool open_channels(struct host *host, int folder)
{
    struct stat its;
    if (mkdirat(folder, channels_name, S_IRWXU) && errno != EEXIST)
        return complain("%s/%s: %s", host->folder, channels_name, strerror(errno)), false;
    host->channels = openat(folder, channels_name, O_RDONLY | O_DIRECTORY | O_NOFOLLOW | O_CLOEXEC);
    if (host->channels < 0)
        return complain("%s/%s: %s", host->folder, channels_name, strerror(errno)), false;
    if (!fstat(host->channels, &its) && its.st_uid == geteuid() &&
        !(its.st_mode & (S_IRWXG | S_IRWXO)))
        return true;
    complain("%s/%s isn't the lender's alone", host->folder, channels_name);
    return false;
}

bool folder_whole(struct host *host)
{
    static char whole[PATH_MAX];
    if (host->folder[0] == '/')
        return true;
    if (!realpath(host->folder, whole))
        return complain("%s: %s", host->folder, strerror(errno)), false;
    if (strlen(whole) + strlen("/") + MOST_NAME <= MOST_PATH)
        host->folder = whole;
    return true;
}

bool folder_lock(struct host *host)
{
    int file = open(host->folder, O_RDONLY | O_DIRECTORY | O_CLOEXEC);
    if (file < 0)
        return complain("%s: %s", host->folder, strerror(errno)), false;
    if (!flock(file, LOCK_EX | LOCK_NB))
        return open_channels(host, file);
    int why = errno;
    file_close(file);
    complain(why == EWOULDBLOCK ? "%s is another host's" : "%s can't be locked", host->folder);
    return false;
}

int folder_limit_lock(const struct seat *seat)
{
    char name[MOST_NAME + 1];
    snprintf(name, sizeof name, "%s%s", lock_mark, seat->name);
    return openat(seat->host->channels, name, O_RDONLY | O_CREAT | O_NOFOLLOW | O_CLOEXEC, S_IRUSR);
}

/* Removes the files that writers of limits have locked. */
static void remove_locks(const struct host *host)
{
    char channels[MOST_PATH];
    struct dirent **found;
    snprintf(channels, sizeof channels, "/proc/self/fd/%d", host->channels);
    int count = scandir(channels, &found, NULL, NULL);
    for (int i = 0; i < count; i++) {
        if (found[i]->d_name[0] == *lock_mark && is_name(found[i]->d_name + 1))
            unlinkat(host->channels, found[i]->d_name, 0);
        free(found[i]);
    }
    if (count >= 0)
        free(found);
}

void folder_leave(const struct host *host)
{
    char path[MOST_KEPT];
    remove_locks(host);
    snprintf(path, sizeof path, "%s/%s", host->folder, channels_name);
    rmdir(path);
}

/* The name of what is kept of a guest: a link that leads nowhere, as links are made whole and
 * renamed whole. */
static void name_kept(const struct host *host, const char *name, const char *mark,
                      char path[MOST_KEPT])
{
    snprintf(path, MOST_KEPT, "%s/%s%s", host->folder, mark, name);
}

const char *folder_keep(struct seat *seat, const struct guest_terms *terms)
{
    char path[MOST_KEPT], part[MOST_KEPT], words[MOST_LIMIT_WORDS], text[MOST_KEPT];
    const uint32_t numbers[KEPT_NUMBERS] = {
        terms->least, terms->most,   terms->priority, terms->strict, terms->overhead,
        terms->user,  terms->memory, terms->start,    terms->weight, seat_frames(seat)};
    int length = snprintf(text, sizeof text, "%s", terms_word);
    for (unsigned i = 0; i < KEPT_NUMBERS; i++)
        length += snprintf(text + length, sizeof text - (size_t)length, "%" PRIu32 " ", numbers[i]);
    snprintf(text + length, sizeof text - (size_t)length, "%s", limit_words(&terms->limit, words));
    name_kept(seat->host, seat->name, "=", path);
    name_kept(seat->host, seat->name, ".=", part);
    unlink(part);
    if (symlink(text, part) || rename(part, path))
        return strerror(errno);
    seat->kept_pages = seat_frames(seat);
    return NULL;
}

bool folder_keep_pages(struct seat *seat)
{
    const char *fault =
        seat_frames(seat) == seat->kept_pages ? NULL : folder_keep(seat, &seat->terms);
    if (fault)
        complain("its pages can't be kept for a later lender: %s", fault);
    return !fault;
}

void folder_forget(const struct host *host, const char *name)
{
    char path[MOST_KEPT];
    name_kept(host, name, "=", path);
    unlink(path);
}

/* Reads this many numbers, a blank after each; what comes after them, or NULL where there are
 * fewer. */
static char *take_numbers(char *words, unsigned count, uint64_t numbers[])
{
    for (unsigned i = 0; i < count; i++) {
        char *end = strchr(words, ' ');
        if (!end)
            return NULL;
        *end = 0;
        if (!read_number(words, 10, UINT32_MAX, &numbers[i]))
            return NULL;
        words = end + 1;
    }
    return words;
}

/* Reads what is kept of a guest into its terms and its pages; whether all is kept. */
static bool recall(const struct host *host, const char *name, struct guest_terms *terms,
                   uint32_t *pages)
{
    enum { OVERHEAD = 4, USER, MEMORY, START, WEIGHT, PAGES };
    char path[MOST_KEPT], text[MOST_KEPT];
    uint64_t numbers[KEPT_NUMBERS] = {terms->least,    terms->most, terms->priority, terms->strict,
                                      terms->overhead, terms->user, terms->memory,   terms->start,
                                      terms->weight,   *pages};
    struct guest_limit limit;
    name_kept(host, name, "=", path);
    ssize_t length = readlink(path, text, sizeof text - 1);
    text[length > 0 ? length : 0] = 0;
    bool all = !strncmp(text, terms_word, sizeof terms_word - 1);
    char *words = all ? take_numbers(text + sizeof terms_word - 1, KEPT_NUMBERS, numbers)
                      : take_numbers(text, 1, &numbers[OVERHEAD]);
    if (!words || limit_read(words, &limit))
        return false;
    *terms = (struct guest_terms){.least = (uint32_t)numbers[0],
                                  .most = (uint32_t)numbers[1],
                                  .priority = (uint32_t)numbers[2],
                                  .strict = numbers[3] != 0,
                                  .overhead = (uint32_t)numbers[OVERHEAD],
                                  .limit = limit,
                                  .user = (uint32_t)numbers[USER],
                                  .memory = (uint32_t)numbers[MEMORY],
                                  .start = (uint32_t)numbers[START],
                                  .weight = (uint32_t)numbers[WEIGHT]};
    *pages = (uint32_t)numbers[PAGES];
    return all;
}

/* Whether this is a socket that the lender's user has made. */
static bool is_own_socket(const char *path)
{
    struct stat file;
    return !lstat(path, &file) && S_ISSOCK(file.st_mode) && file.st_uid == geteuid();
}

bool folder_moves_channel(const struct seat *seat)
{
    char path[MOST_KEPT];
    name_kept(seat->host, seat->name, earlier_mark, path);
    return is_own_socket(path) && !rename(path, seat->later_path);
}

/* Makes a seat for the guest of this name, unless it has one; false where it is at work, and there
 * is no place for it. */
static bool take_over(struct host *host, const char *name)
{
    struct guest_terms terms = host_usual_terms(host);
    uint32_t pages = 0;
    if (seat_of(host, name))
        return true;
    bool knows = recall(host, name, &terms, &pages);
    const char *fault = seat_add(host, name, &terms);
    if (fault) {
        complain("%s isn't taken over: %s", name, fault);
        return host->count < host->most || !process_is_left(host, name);
    }
    seat_of(host, name)->asks_terms = !knows;
    if (knows)
        seat_reserve(seat_of(host, name), pages);
    return true;
}

/* Makes a seat for each socket of a folder whose name is this mark and a guest's name, in the order
 * of names; false where one at work has no place. */
static bool take_over_all(struct host *host, const char *folder, const char *mark)
{
    bool all = true;
    char path[MOST_KEPT];
    struct dirent **found;
    size_t length = strlen(mark);
    int count = scandir(folder, &found, NULL, alphasort);
    for (int i = 0; i < count; i++) {
        const char *name = found[i]->d_name;
        snprintf(path, sizeof path, "%s/%s", folder, name);
        if (!strncmp(name, mark, length) && is_name(name + length) && is_own_socket(path))
            all &= take_over(host, name + length);
        free(found[i]);
    }
    if (count >= 0)
        free(found);
    return all;
}

bool folder_take_over(struct host *host)
{
    char channels[MOST_PATH];
    snprintf(channels, sizeof channels, "/proc/self/fd/%d", host->channels);
    return take_over_all(host, channels, "") && take_over_all(host, host->folder, earlier_mark);
}
