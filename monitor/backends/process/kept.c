#include "kept.h"

#include "lent.h"

#include "../vhost/handlers.h"

#include <sys/socket.h>

const struct kept_state *kept_state(const struct kept *kept)
{
    return &kept->states[kept->counts & 1];
}

void kept_clear(struct kept *kept)
{
    struct kept_state *state = &kept->states[0];
    kept->layout = KEPT_LAYOUT;
    kept->bytes = sizeof *kept;
    kept->outbox.ends[0] = kept->outbox.ends[1] = -1;
    state->socket = state->channel = state->notes.channel = state->notes.later = state->notes.end =
        -1;
    for (unsigned number = 0; number < QUEUES; number++)
        state->rings[number] = (struct ring){.kick = NO_EVENT, .call = NO_EVENT, .fault = NO_EVENT};
}

static void save_memory(const struct backend *backend, struct kept_state *state)
{
    const struct guest_memory *memory = &backend->memory;
    for (unsigned i = 0; i < memory->count; i++) {
        const struct balloon_region *region = &memory->regions[i];
        state->regions[i] = (struct kept_region){
            {region->guest, region->length, memory->user[i], region->offset}, region->fd};
    }
    state->region_count = memory->count;
    state->set_words = backend->balloon.ballooned_words;
}

/* A message that counts as served leaves the inbox. */
static void leave_served(struct lent *lent)
{
    if (lent->kept->inbox.number != lent->messages)
        inbox_next(&lent->kept->inbox);
}

void kept_save(struct lent *lent)
{
    const struct backend *backend = &lent->backend;
    const VbDevice *device = &backend->balloon.state.device;
    uint32_t other = 1 - (lent->kept->counts & 1);
    struct kept_state *state = &lent->kept->states[other];
    state->notes = lent->notes;
    state->notes.undiscarded = backend->undiscarded;
    state->told = backend->told;
    rings_keep(backend, state->rings);
    save_memory(backend, state);
    state->counters = backend->counters;
    memcpy(state->figures, backend->figures, sizeof state->figures);
    state->figure_count = backend->figure_count;
    state->target_pages = device->target;
    state->actual_pages = device->actual;
    state->poison_value = device->poison;
    state->seen = backend->seen;
    state->remarks = backend->remarks;
    state->socket = backend->socket;
    state->channel = backend->channel;
    state->outcome = backend->outcome;
    state->awaited = lent->awaited;
    state->outside = lent->outside;
    state->messages = lent->messages;
    state->bytes = lent->bytes;
    kept_file(lent->kept)->moves[other] =
        (struct kept_move){lent->notes.serial, backend->log.place,  backend->transfer,
                           backend->moved,     backend->comes_with, lent->reserved};
    __atomic_store_n(&lent->kept->counts, other, __ATOMIC_RELEASE);
    __atomic_store_n(&backend->room->amid, false, __ATOMIC_RELEASE);
    files_let_go();
    leave_served(lent);
}

void kept_leave(struct lent *lent)
{
    leave_served(lent);
    inbox_close(&lent->kept->inbox);
}

/* What is kept with the state that counts of a guest that migrates: nothing, where another program
 * has kept that. */
static struct kept_move move_of(const struct kept *kept)
{
    const struct kept_move *move = &kept_file(kept)->moves[kept->counts & 1];
    bool is_its = move->serial == kept_state(kept)->notes.serial;
    return is_its ? *move : (struct kept_move){0};
}

static bool restore_memory(struct lent *lent, const struct kept_state *state)
{
    struct backend *backend = &lent->backend;
    struct balloon *balloon = &backend->balloon;
    bool good = state->region_count <= MOST_REGIONS && state->set_words <= MOST_SET / 64;
    for (unsigned i = 0; good && i < state->region_count; i++)
        good = memory_add(&backend->memory, state->regions[i].place, state->regions[i].file);
    if (good && state->region_count > 0)
        good =
            balloon_set_regions(balloon, backend->memory.regions, backend->memory.count) == VB_OK;
    if (!good)
        return refuse("the guest's memory can't be mapped by another process");
    marks_regain(backend, &lent->marks, state->set_words);
    return true;
}

bool kept_regain(struct kept *kept)
{
    struct inbox *inbox = &kept->inbox;
    uint64_t messages = kept_state(kept)->messages;
    bool is_served = inbox->number != messages;
    uint64_t unnoted = is_served ? 0 : kept->unnoted;
    if (is_served) {
        inbox->number = messages - 1;
        inbox_next(inbox);
    }
    outbox_regain(&kept->outbox);
    return inbox_regain(inbox, unnoted);
}

bool kept_restore(struct lent *lent)
{
    const struct kept_state *state = kept_state(lent->kept);
    struct backend *backend = &lent->backend;
    VbDevice *device = &backend->balloon.state.device;
    struct kept_move move = move_of(lent->kept);
    lent->notes = state->notes;
    lent->awaited = state->awaited;
    lent->outside = state->outside;
    lent->messages = state->messages;
    lent->bytes = state->bytes;
    backend->socket = state->socket;
    backend->channel = state->channel;
    backend->outcome = state->outcome;
    backend->counters = state->counters;
    backend->seen = state->seen;
    backend->remarks = state->remarks;
    backend->undiscarded = state->notes.undiscarded;
    memcpy(backend->figures, state->figures, sizeof backend->figures);
    backend->figure_count = state->figure_count < MOST_TAGS ? state->figure_count : MOST_TAGS;
    if (!restore_memory(lent, state) ||
        !rings_regain(backend, &state->told, state->rings, state->notes.ready_then) ||
        !migration_regain(backend, move.log, state->rings))
        return false;
    transfer_regain(backend, &move.transfer);
    backend->moved = move.moved;
    backend->comes_with = move.comes_with;
    lent->reserved = move.reserved;
    balloon_set_target(&backend->balloon, state->target_pages);
    configuration_write(device, ACTUAL_AT, state->actual_pages);
    configuration_write(device, POISON_AT, state->poison_value);
    return true;
}

uint64_t kept_bytes(const struct kept *kept)
{
    const struct kept_state *state = kept_state(kept);
    return state->bytes + (kept->inbox.number == state->messages ? inbox_bytes(&kept->inbox) : 0);
}

uint64_t kept_unnoted(const struct kept *kept)
{
    int count = COUNT_BEGINS;
    socklen_t size = sizeof count;
    if (getsockopt(kept_state(kept)->socket, SOL_SOCKET, SO_PEEK_OFF, &count, &size))
        return 0;
    return kept->counted_from + (uint64_t)(COUNT_BEGINS - count) - kept_bytes(kept);
}

void kept_count_anew(struct kept *kept)
{
    const int count = COUNT_BEGINS;
    kept->counted_from = kept_bytes(kept) + kept->unnoted;
    setsockopt(kept_state(kept)->socket, SOL_SOCKET, SO_PEEK_OFF, &count, sizeof count);
}

static void add(int files[MOST_KEPT_FILES], unsigned *count, int file)
{
    if (file >= 0 && *count < MOST_KEPT_FILES)
        files[(*count)++] = file;
}

/* The files of messages that weren't handled. */
static void add_of_messages(const struct kept *kept, int files[MOST_KEPT_FILES], unsigned *count)
{
    const struct kept_state *state = kept_state(kept);
    const struct files *beside = &kept->inbox.message.files,
                       ahead = inbox_files_ahead(&kept->inbox);
    if (kept->inbox.number != state->messages)
        return;
    for (unsigned i = 0; state->outcome == UNHANDLED && i < beside->count && i < MOST_FILES; i++)
        add(files, count, beside->numbers[i]);
    for (unsigned i = 0; i < ahead.count; i++)
        add(files, count, ahead.numbers[i]);
}

unsigned kept_files(const struct kept *kept, int files[MOST_KEPT_FILES])
{
    const struct kept_state *state = kept_state(kept);
    const int others[] = {state->socket,       state->channel,   state->notes.channel,
                          state->notes.later,  state->notes.end, kept->outbox.ends[0],
                          kept->outbox.ends[1]};
    const struct kept_move move = move_of(kept);
    unsigned count = 0;
    if (move.log.bytes > 0)
        add(files, &count, move.log.file);
    if (transfer_has_file(&move.transfer))
        add(files, &count, move.transfer.file);
    for (unsigned i = 0; i < sizeof others / sizeof others[0]; i++)
        add(files, &count, others[i]);
    for (unsigned i = 0; i < state->region_count && i < MOST_REGIONS; i++)
        add(files, &count, state->regions[i].file);
    add_of_messages(kept, files, &count);
    for (unsigned number = 0; number < QUEUES; number++) {
        const struct ring *ring = &state->rings[number];
        add(files, &count, ring->kick.file), add(files, &count, ring->call.file),
            add(files, &count, ring->fault.file);
    }
    return count;
}
