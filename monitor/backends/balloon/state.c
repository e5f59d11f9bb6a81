#include "state.h"

#include "backend.h"
#include "codes.h"
#include "hints.h"

#include <libgen.h>
#include <stdio.h>
#include <stdlib.h>
#include <sys/stat.h>
#include <unistd.h>

enum { MOST_PATH = 4096 };

static struct {
    uint8_t wanted[VB_STATE_BYTES]; /* what was to be written last */
    bool written;                   /* and was */
    int why;                        /* else why it wasn't, as it was said */
} state;

/* Opens the file, which is no link and nothing that a reader would wait for; -1 where it can't,
 * with errno. */
static int open_state(const char *path)
{
    struct stat its;
    int file = open(path, O_RDONLY | O_NOFOLLOW | O_NONBLOCK | O_CLOEXEC);
    if (file < 0 || (!fstat(file, &its) && S_ISREG(its.st_mode)))
        return file;
    file_close(file);
    return errno = EINVAL, -1;
}

void state_take(struct backend *backend, VbBalloon saved)
{
    hints_go_on(backend, saved);
    balloon_set_target(&backend->balloon, saved.device.target);
    configuration_write(&backend->balloon.state.device, POISON_AT, saved.device.poison);
    backend->told.actual = saved.device.actual;
    backend->told.goes_on = true;
}

bool state_load(struct backend *backend)
{
    const char *path = backend->options->state;
    VbBalloon before = backend->balloon.state;
    uint8_t bytes[VB_STATE_BYTES + 1];
    int file = path ? open_state(path) : -1;
    if (file < 0)
        return !path || errno == ENOENT || refuse("%s: %s", path, strerror(errno));
    ssize_t length = read(file, bytes, sizeof bytes);
    int why = errno;
    file_close(file);
    if (length < 0)
        return refuse("%s: %s", path, strerror(why));
    uint32_t code = vb_restore(&before.device, &before.held, bytes, (size_t)length);
    if (code != VB_OK)
        return refuse("%s is no saved state: %s", path, answer_words(code));
    state_take(backend, before);
    return true;
}

uint32_t state_bytes(const struct backend *backend, uint8_t bytes[VB_STATE_BYTES])
{
    VbBalloon its = backend->balloon.state;
    const VbRegion loaded = {.length = backend->moved.memory_end};
    if (backend->told.goes_on)
        configuration_write(&its.device, ACTUAL_AT, backend->told.actual);
    if (backend->moved.awaits && vb_set_regions(&its, &loaded, 1) != VB_OK)
        return VB_BAD_ARGUMENT;
    return vb_save(&its.device, its.held, bytes, VB_STATE_BYTES);
}

/* Has the disk keep what a file or a folder has, and closes that; false where it can't, with
  * errno. */
static bool settle(int file, bool good)
{
    good = good && !fsync(file);
    int why = errno;
    return !close(file) && (errno = why, good);
}

/* Puts the bytes into a new file. A link of its name is no way to another one. */
static bool write_part(const char *part, const uint8_t *bytes, size_t length)
{
    if (unlink(part) && errno != ENOENT)
        return false;
    int file = open(part, O_WRONLY | O_CREAT | O_EXCL | O_NOFOLLOW | O_CLOEXEC, 0600);
    if (file < 0)
        return false;
    errno = ENOSPC; /* where only a part is written, which says nothing itself */
    return settle(file, write(file, bytes, length) == (ssize_t)length);
}

/* Puts bytes into a file, and that in the place of the one before. */
static bool write_file(const char *path, const uint8_t *bytes, size_t length)
{
    char part[MOST_PATH], name[MOST_PATH];
    if (snprintf(part, sizeof part, "%s.part", path) >= (int)sizeof part)
        return errno = ENAMETOOLONG, false;
    if (!write_part(part, bytes, length) || rename(part, path))
        return false;
    int folder = open(dirname(strcpy(name, path)), O_RDONLY | O_DIRECTORY | O_CLOEXEC);
    return folder >= 0 && settle(folder, true);
}

/* Writes it, and says once that it can't, and once that it can again. */
static void write_wanted(const char *path)
{
    int before = state.why;
    state.written = write_file(path, state.wanted, sizeof state.wanted);
    state.why = state.written ? 0 : errno;
    if (state.why && state.why != before)
        complain("%s isn't written: %s", path, strerror(state.why));
    if (before && !state.why)
        complain("%s is written again", path);
}

bool state_save(struct backend *backend, bool again)
{
    const char *path = backend->options->state;
    uint8_t bytes[VB_STATE_BYTES];
    if (!path)
        return true;
    uint32_t code = state_bytes(backend, bytes);
    if (code != VB_OK)
        return refuse("the device can't be saved: %s", answer_words(code));
    bool changed = memcmp(bytes, state.wanted, sizeof bytes) != 0;
    memcpy(state.wanted, bytes, sizeof bytes);
    if (changed || (again && !state.written))
        write_wanted(path);
    return true;
}
