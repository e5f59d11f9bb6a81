/* A guest's process that aborts in one place, so that another one takes over: that of the guest
 * `cut-N` or `cut-N-..` at the Nth of these places that it comes by, which are before and after
 * each call that this file is put before. Later processes of that guest don't end, but those of the
 * guest `cut-always`, each at the first place.
 *
 * The environment's ANEW_WRONG names what later processes do wrong:
 *
 *     index-0        begins each ring at its first entry
 *     no-set         has nothing in the balloon
 *     answers-twice  answers a message that was answered already
 *     lost-bytes     doesn't know of bytes that were read as the process before ended
 *     lost-files     nor of files
 *     old-state      resumes with the state that was kept before the last one
 *     new-number     holds a deflate that was held before by a new number
 *     ungranted      waits for the grant of a deflate that was granted
 *     handles-twice  calls the handler of a message again that was handled
 *     no-call        tells no driver of what the process before has used
 *     no-log         logs nothing any longer
 *     no-load        knows nothing of a device that is loaded
 *     any-part       resumes such a one, though the process before ended amid a part of it
 */
#include "../../backends/process/lent.h"
#include "../../backends/vhost/handlers.h"

#include <fcntl.h>
#include <stdlib.h>
#include <sys/socket.h>
#include <unistd.h>

static struct kept *kept;
static unsigned long at, left;
static bool always;

/* Whether a later process of this guest is wrong in this way. */
static bool is(const char *name)
{
    const char *wrong = getenv("ANEW_WRONG");
    return kept && kept->ended_by != 0 && wrong && !strcmp(wrong, name);
}

/* Ends the process where it is the first one. */
static void cut(void)
{
    if (kept && (kept->ended_by == 0 || always) && ++at == left)
        abort();
}

#define REAL(type, name, ...)                                                                      \
    type __real_##name(__VA_ARGS__);                                                               \
    type __wrap_##name(__VA_ARGS__);                                                               \
    type __wrap_##name(__VA_ARGS__)

#define CUT(type, name, call, ...)                                                                 \
    REAL(type, name, __VA_ARGS__)                                                                  \
    {                                                                                              \
        cut();                                                                                     \
        type answer = __real_##name call;                                                          \
        cut();                                                                                     \
        return answer;                                                                             \
    }

CUT(uint32_t, vb_go_on, (notice, balloon, regions, count, room, answer_of), VbNotice *notice,
    VbBalloon *balloon, const VbRegion *regions, size_t count, VbRoom *room, uint16_t answer_of)
CUT(VbMarked, vb_mark, (kind, runs, count, set, words), uint32_t kind, const VbRun *runs,
    uint32_t count, uint64_t *set, size_t words)
CUT(uint64_t, vb_unmark, (pages, count, set, words), const uint64_t *pages, size_t count,
    uint64_t *set, size_t words)
CUT(ssize_t, recvmsg, (file, message, flags), int file, struct msghdr *message, int flags)
CUT(ssize_t, write, (file, bytes, length), int file, const void *bytes, size_t length)
CUT(ssize_t, splice, (from, at_from, to, at_to, length, flags), int from, off_t *at_from, int to,
    off_t *at_to, size_t length, unsigned flags)
CUT(ssize_t, pipe_read, (file, to, length, ended), int file, void *to, size_t length, bool *ended)
CUT(int, fallocate, (file, mode, begin, length), int file, int mode, off_t begin, off_t length)
CUT(bool, lending_send, (channel, message), int channel, struct lending_message *message)
CUT(unsigned, lending_read, (channel, messages, most, ended), int channel,
    struct lending_message messages[], unsigned most, bool *ended)
CUT(bool, rings_settle, (backend), struct backend *backend)

REAL(void, kept_save, struct lent *lent)
{
    cut();
    __real_kept_save(lent);
    cut();
}

REAL(void, dirty_log_mark, struct dirty_log *log, uint64_t guest, uint64_t length)
{
    cut();
    __real_dirty_log_mark(log, guest, length);
    cut();
}

REAL(bool, migration_regain, struct backend *backend, struct log_place place,
     const struct ring rings[QUEUES])
{
    if (is("no-log"))
        place.bytes = 0;
    return __real_migration_regain(backend, place, rings);
}

REAL(void, transfer_regain, struct backend *backend, const struct transfer *transfer)
{
    const struct transfer none = {0};
    backend->room->amid = backend->room->amid && !is("any-part");
    bool forgets = is("no-load") && transfer->state == TRANSFER_LOADS;
    __real_transfer_regain(backend, forgets ? &none : transfer);
}

REAL(void, inbox_next, struct inbox *inbox)
{
    cut();
    __real_inbox_next(inbox);
    cut();
}

REAL(bool, kept_regain, struct kept *its)
{
    kept = its;
    return __real_kept_regain(its);
}

REAL(int, lent_run, const struct options *options, struct kept *its)
{
    left = strncmp(options->client, "cut-", 4) ? 0 : strtoul(options->client + 4, NULL, 10);
    always = !strcmp(options->client, "cut-always");
    left = always ? 1 : left;
    if (is("old-state"))
        kept->counts = 1 - kept->counts;
    if (is("ungranted"))
        kept->granted = 0;
    if (is("handles-twice"))
        kept->states[kept->counts & 1].outcome = UNHANDLED;
    return __real_lent_run(options, its);
}

REAL(bool, memory_word, const struct guest_memory *memory, uint64_t guest, uint16_t *word)
{
    bool read = __real_memory_word(memory, guest, word);
    *word = is("index-0") ? 0 : *word;
    return read;
}

REAL(void, marks_regain, struct backend *backend, struct marks *marks, uint64_t words)
{
    if (is("no-set"))
        memset(marks->set, 0, words * sizeof *marks->set);
    __real_marks_regain(backend, marks, words);
}

REAL(void, outbox_regain, struct outbox *outbox)
{
    __real_outbox_regain(outbox);
    outbox->number = is("answers-twice") ? 0 : outbox->number;
}

/* The files beside what was read are noted twice, as where the process before ended just then. */
REAL(bool, inbox_regain, struct inbox *inbox, uint64_t length)
{
    bool restored = __real_inbox_regain(inbox, is("lost-bytes") ? 0 : length);
    if (length > 0 && inbox_files_ahead(inbox).count == 0)
        files_take(&inbox->message.files);
    return restored;
}

REAL(void, files_take, struct files *files)
{
    if (!is("lost-files") || kept->unnoted == 0)
        __real_files_take(files);
}

REAL(void, lent_holds, struct backend *backend, uint32_t pages)
{
    struct lent *lent = (struct lent *)backend;
    lent->regains = lent->regains && !is("new-number");
    __real_lent_holds(backend, pages);
}

REAL(bool, client_tell, struct backend *backend, int queue)
{
    return is("no-call") ? true : __real_client_tell(backend, queue);
}
