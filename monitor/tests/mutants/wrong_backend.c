/* Backends that are wrong on purpose: tools/test vhost-user has to find each, by one test of its
 * own. The linker puts these functions before those of the same names, and the environment's
 * BACKEND_WRONG names the one that it is:
 *
 *     no-call           a used buffer isn't told by the event of its queue
 *     serves-stopped    a ring that was stopped is still served at its kicks
 *     base-0            a ring that stops answers that it resumes at 0
 *     no-reply          an answer that the client waits for doesn't come
 *     no-change         a change of the configuration isn't told
 *     keeps-slot        a region that the client takes away stays
 *     reset-keeps       a reset leaves the rings running
 *     keeps-memory      a session that begins leaves the memory of the one before
 *     first-region      each address of the client counts as one of its first region
 *     many-statistics   all figures that the guest tells are kept, however little room there is
 *     keeps-files       the files of a memory table that another one follows stay open
 *     early-change      a change is told before the driver is ready
 *     no-more           what a long service leaves on a queue isn't served
 *     any-kick          any file is taken for a kick
 *     keeps-kick        the file of a kick that another one follows stays open
 *     long-turn         a notice serves as many pages as its chains name
 *     no-ctrunc         files for which a message had no room aren't missed
 *     small-rings       a ring of more than 256 entries is refused
 *     old-round         hints are told whose round's id wasn't read
 *     after-done        hints are told whose round has ended
 *     discards-kept     hints are discarded that are to be kept
 *     ids-restart       the ids of rounds restart with each process
 *
 * Three are right, but for their age or their machine:
 *
 *     no-area           there is no control area after the configuration, as before 0.4.0
 *     old-kernel        it isn't known of an eventfd whether it is a semaphore, as before Linux 6.5
 *     bad-disk          no file can be kept on the disk
 */
#include "../../backends/balloon/hints.h"
#include "../../backends/vhost/handlers.h"
#include "../../backends/vhost/inbox.h"

#include <stdlib.h>
#include <unistd.h>

static bool is(const char *name)
{
    const char *wrong = getenv("BACKEND_WRONG");
    return wrong && !strcmp(wrong, name);
}

/* Declares the right function and the one in its place. */
#define WRAPPED(type, name, ...)                                                                   \
    type __real_##name(__VA_ARGS__);                                                               \
    type __wrap_##name(__VA_ARGS__)

WRAPPED(bool, event_signal, const struct event *event)
{
    return is("no-call") || __real_event_signal(event);
}

WRAPPED(void, ring_end, struct backend *backend, unsigned number)
{
    if (!is("serves-stopped"))
        __real_ring_end(backend, number);
}

WRAPPED(bool, message_answer, int socket, const struct message *message, const void *body,
        size_t size)
{
    uint32_t words[2] = {message_u32(message, 0), 0};
    bool forgets = message->request == GET_VRING_BASE && is("base-0");
    return __real_message_answer(socket, message, forgets ? words : body, size);
}

WRAPPED(bool, message_wants_answer, const struct message *message)
{
    return !is("no-reply") && __real_message_wants_answer(message);
}

WRAPPED(bool, message_tell, int channel, int queue)
{
    return (queue < 0 && is("no-change")) || __real_message_tell(channel, queue);
}

WRAPPED(bool, memory_remove, struct guest_memory *memory, struct region_place place)
{
    return is("keeps-slot") || __real_memory_remove(memory, place);
}

WRAPPED(void, rings_forget, struct backend *backend)
{
    if (!is("reset-keeps"))
        __real_rings_forget(backend);
}

WRAPPED(bool, slots_forget, struct backend *backend)
{
    return is("keeps-memory") || __real_slots_forget(backend);
}

WRAPPED(bool, memory_of_user, const struct guest_memory *memory, uint64_t user, uint64_t *address)
{
    bool found = __real_memory_of_user(memory, user, address);
    if (found && is("first-region"))
        *address = user % ((uint64_t)1 << 28) + memory->regions[0].guest;
    return found;
}

WRAPPED(uint32_t, statistics_room, uint32_t count)
{
    return is("many-statistics") ? count : __real_statistics_room(count);
}

WRAPPED(void, memory_clear, struct guest_memory *memory)
{
    if (is("keeps-files"))
        memory->count = 0;
    else
        __real_memory_clear(memory);
}

WRAPPED(void, backend_tell_change, struct backend *backend)
{
    if (is("early-change") && !backend_is_ready(backend) && backend->channel >= 0) {
        backend->counters.told++;
        backend->tell(backend, -1);
    } else {
        __real_backend_tell_change(backend);
    }
}

WRAPPED(bool, backend_serve_pending, struct backend *backend)
{
    return is("no-more") || __real_backend_serve_pending(backend);
}

WRAPPED(bool, event_take_kick, struct event *event, int file)
{
    if (is("keeps-kick"))
        *event = NO_EVENT;
    if (!is("any-kick"))
        return __real_event_take_kick(event, file);
    event_close(event);
    *event = (struct event){file, false};
    return true;
}

WRAPPED(bool, backend_start, struct backend *backend, const struct options *options)
{
    bool started = __real_backend_start(backend, options);
    backend->balloon.state.device.settings.discards_hints |= is("discards-kept");
    if (is("long-turn"))
        backend->balloon.most_pages = UINT32_MAX;
    return started;
}

WRAPPED(enum stream_state, inbox_read, int socket, struct inbox *inbox)
{
    enum stream_state state = __real_inbox_read(socket, inbox);
    inbox->message.files.lost = inbox->message.files.lost && !is("no-ctrunc");
    return state;
}

WRAPPED(uint32_t, vb_start_queue, VbBalloon *balloon, const VbRegion *regions, size_t count,
        uint32_t kind, VbQueueStart at)
{
    return is("small-rings") && at.size > 256
               ? VB_MISPLACED
               : __real_vb_start_queue(balloon, regions, count, kind, at);
}

WRAPPED(uint32_t, vb_begin, VbNotice *notice, VbBalloon *balloon, const VbRegion *regions,
        size_t count, VbRoom *room, uint32_t kind, uint32_t chains, uint32_t pages, uint32_t keeps)
{
    VbRound *round = &balloon->device.round;
    if (kind == VB_HINT &&
        ((is("old-round") && round->shown >= 2) || (is("after-done") && round->shown == 1)))
        *round = (VbRound){round->last, round->last, 1};
    return __real_vb_begin(notice, balloon, regions, count, room, kind, chains, pages, keeps);
}

WRAPPED(void, hints_go_on, struct backend *backend, VbBalloon before)
{
    if (!is("ids-restart"))
        __real_hints_go_on(backend, before);
}

WRAPPED(enum outcome, get_config, struct backend *backend, struct message *message)
{
    enum { HEAD = 12 };
    uint8_t body[MOST_BODY] = {0};
    uint32_t offset = message_u32(message, 0), size = message_u32(message, 4);
    if (!is("no-area"))
        return __real_get_config(backend, message);
    memcpy(body, message->body, HEAD);
    balloon_read_config(&backend->balloon, offset, body + HEAD, size);
    return answer_bytes(backend, message, body, HEAD + size);
}

WRAPPED(int, file_number, int file, const char *name)
{
    return is("old-kernel") ? -1 : __real_file_number(file, name);
}

WRAPPED(int, fsync, int file)
{
    return is("bad-disk") ? (errno = EIO, -1) : __real_fsync(file);
}
