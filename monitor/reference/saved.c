/* Versions and saved states in plain C. */
#include "reference.h"
#include "vb_host.h"

uint32_t vb_version(void)
{
    return VB_VERSION_NUMBER;
}

uint32_t vb_host_version(void)
{
    return VB_HOST_VERSION;
}

/* The newest version, the one before it, which says nothing of hints, and the one before that,
 * which doesn't say what is held of deflates either. */
enum { STATE_VERSION = 4, OLDER_VERSION = 3, OLDEST_VERSION = 2, SUM_BYTES = 8 };
enum { OLDER_BYTES = VB_STATE_BYTES - 40, OLDEST_BYTES = OLDER_BYTES - 9 };
static const uint8_t STATE_BEGINS[16] = {
    'V', 'B', 'S', 'T', 'A', 'T', 'E', 0, STATE_VERSION, 0, 0, 0, VB_STATE_BYTES, 0, 0, 0};

/* Where a number is in a saved state, or is read from it. */
typedef struct {
    uint8_t *at;
    bool writes;
} Cursor;

static void number(Cursor *cursor, void *field, size_t bytes)
{
    if (cursor->writes)
        memcpy(cursor->at, field, bytes);
    else
        memcpy(field, cursor->at, bytes);
    cursor->at += bytes;
}

#define NUMBER(field) number(cursor, &(field), sizeof(field))

static void ring_numbers(Cursor *cursor, VbQueue *queue)
{
    NUMBER(queue->table);
    NUMBER(queue->avail);
    NUMBER(queue->used);
    NUMBER(queue->size);
    NUMBER(queue->next_avail);
    NUMBER(queue->next_used);
}

static void state_numbers(Cursor *cursor, VbDevice *device, VbHeld *held, uint64_t version)
{
    NUMBER(device->settings.memory_end);
    NUMBER(device->settings.offered);
    NUMBER(device->settings.reserved_pages);
    NUMBER(device->settings.needs_must_tell);
    NUMBER(device->settings.skips_bad_pages);
    NUMBER(device->features);
    NUMBER(device->target);
    NUMBER(device->actual);
    NUMBER(held->statistics);
    NUMBER(device->status);
    ring_numbers(cursor, &device->inflate);
    ring_numbers(cursor, &device->deflate);
    ring_numbers(cursor, &device->statistics);
    ring_numbers(cursor, &device->report);
    number(cursor, &device->poison, 4);
    if (version >= OLDER_VERSION) {
        NUMBER(device->settings.holds_deflates);
        NUMBER(held->deflate);
        NUMBER(held->pages);
    }
    if (version >= STATE_VERSION) {
        ring_numbers(cursor, &device->hint);
        NUMBER(device->round.shown);
        NUMBER(device->round.last);
        NUMBER(device->round.opened);
        NUMBER(device->settings.discards_hints);
    }
}

/* FNV-1a with 64 bits. */
static uint64_t state_sum(const uint8_t *bytes, size_t count)
{
    uint64_t sum = 0xcbf29ce484222325;
    for (size_t i = 0; i < count; i++)
        sum = (sum ^ bytes[i]) * 0x100000001b3;
    return sum;
}

static bool is_status(uint8_t status)
{
    uint8_t steps = status & (ACKNOWLEDGE | DRIVER | FEATURES_OK | DRIVER_OK);
    bool in_order = steps == 0 || steps == 1 || steps == 3 || steps == 11 || steps == 15;
    return in_order && !(status & 48) && (!(status & NEEDS_RESET) || (status & DRIVER_OK));
}

static bool are_agreed(const VbDevice *device)
{
    bool needed = (device->features & VERSION_1) &&
                  (!device->settings.needs_must_tell || (device->features & MUST_TELL_HOST));
    return !(device->features & ~device->settings.offered) &&
           ((device->status & DRIVER) || !device->features) &&
           (!(device->status & FEATURES_OK) || needed);
}

static bool is_ring(const VbDevice *device, uint32_t kind)
{
    VbDevice early = *device, placing = *device;
    const VbQueue blank = {.size = 0}, queue = *queue_of(&early, kind);
    bool moved = queue.next_avail || queue.next_used;
    if (memcmp(&queue.table, &blank.table, 24) == 0 && !queue.size && !moved)
        return true;
    placing.status = 0;
    placing.features = device->status & DRIVER ? device->settings.offered : 0;
    return vb_place(&placing, kind, queue.table, queue.avail, queue.used, queue.size) == VB_OK &&
           (!moved || ((device->status & FEATURES_OK) && !lacks_feature(device, kind)));
}

/* Whether what is held of a queue is nothing, or one of its chains, which the device holds, and
 * which names `pages` pages. */
static bool may_be_held(const VbDevice *device, uint32_t kind, uint32_t held, uint32_t pages)
{
    VbDevice copy = *device;
    if (!held)
        return pages == 0;
    return holds_chains(device, kind) && (device->status & DRIVER_OK) &&
           !lacks_feature(device, kind) && held <= queue_of(&copy, kind)->size &&
           pages <= longest_request(device);
}

/* Whether calls lead to this device, which holds this. */
static bool is_possible(const VbDevice *device, const VbHeld *held)
{
    return !are_impossible(&device->settings) && is_status(device->status) && are_agreed(device) &&
           is_ring(device, VB_INFLATE) && is_ring(device, VB_DEFLATE) &&
           is_ring(device, VB_STATISTICS) && is_ring(device, VB_HINT) &&
           is_ring(device, VB_REPORT) && is_round(device) &&
           (!device->poison || (device->settings.offered & VB_F_PAGE_POISON)) &&
           may_be_held(device, VB_STATISTICS, held->statistics, 0) &&
           may_be_held(device, VB_DEFLATE, held->deflate, held->pages);
}

uint32_t vb_save(const VbDevice *device, VbHeld held, uint8_t *out, size_t room)
{
    VbDevice copy = *device;
    Cursor cursor = {out + sizeof STATE_BEGINS, true};
    if (room < VB_STATE_BYTES)
        return VB_BAD_LENGTH;
    if (!is_possible(device, &held))
        return VB_IMPOSSIBLE;
    memcpy(out, STATE_BEGINS, sizeof STATE_BEGINS);
    state_numbers(&cursor, &copy, &held, STATE_VERSION);
    uint64_t sum = state_sum(out, VB_STATE_BYTES - SUM_BYTES);
    number(&cursor, &sum, SUM_BYTES);
    return VB_OK;
}

uint32_t vb_restore(VbDevice *device, VbHeld *held, const uint8_t *bytes, size_t length)
{
    VbDevice restored;
    VbHeld chains = {0, 0, 0};
    uint8_t copy[VB_STATE_BYTES];
    memset(&restored, 0, sizeof restored);
    if (length < sizeof STATE_BEGINS)
        return VB_BAD_LENGTH;
    if (memcmp(bytes, STATE_BEGINS, 8) != 0)
        return VB_NOT_A_STATE;
    uint64_t version = little(bytes + 8, 4);
    if (version < OLDEST_VERSION || version > STATE_VERSION)
        return VB_OTHER_VERSION;
    size_t whole = version == STATE_VERSION   ? VB_STATE_BYTES
                   : version == OLDER_VERSION ? OLDER_BYTES
                                              : OLDEST_BYTES;
    if (little(bytes + 12, 4) != whole || length != whole)
        return VB_BAD_LENGTH;
    if (little(bytes + whole - SUM_BYTES, SUM_BYTES) != state_sum(bytes, whole - SUM_BYTES))
        return VB_BAD_SUM;
    memcpy(copy, bytes, whole);
    Cursor cursor = {copy + sizeof STATE_BEGINS, false};
    state_numbers(&cursor, &restored, &chains, version);
    if (!is_possible(&restored, &chains))
        return VB_IMPOSSIBLE;
    *device = restored;
    *held = chains;
    return VB_OK;
}
